"""The pier's two pages, tried as people and as strangers use them."""
