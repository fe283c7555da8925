"""Paper 01 once more, in the plainest Python: slow, short, and with no word of the proved code or its definitions."""
