"use strict";
const stories = document.getElementById("stories"), none = document.getElementById("none"), state = document.getElementById("state");
const MOST = 50;

function clear() {
  stories.replaceChildren(none);
}

// Text is text: it goes in as text, never as markup. The newest stands first.
function show(story) {
  const place = document.createElement("article");
  const length = [...story.text].reduce((n, c) => n + (c.codePointAt(0) < 128 ? 1 : 2), 0);
  place.className = "story" + (length > 500 ? " longest" : length > 140 ? " long" : "");
  const text = document.createElement("p");
  text.textContent = story.text;
  place.append(text);
  if (story.at) {
    const when = document.createElement("small");
    when.textContent = new Date(story.at * 1000).toLocaleTimeString([], { hour: "2-digit", minute: "2-digit", hour12: false });
    place.append(when);
  }
  none.remove();
  stories.prepend(place);
  while (stories.children.length > MOST) stories.lastElementChild.remove();
  window.scrollTo(0, 0);
}

function say(what, lost) {
  state.textContent = what;
  state.classList.toggle("lost", lost);
}

const events = new EventSource("events");
events.addEventListener("open", () => say("listening", false));
events.addEventListener("error", () => say("no connection to the station", true));
events.addEventListener("begin", clear);
events.addEventListener("story", (event) => show(JSON.parse(event.data)));
