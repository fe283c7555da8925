"use strict";
const at = (id) => document.getElementById(id);
const form = at("form"), text = at("text"), room = at("room"), reason = at("reason"), sent = at("sent"), button = at("send"), key = at("key");
let asked = 0;
let waiting = null;

// Text is text: every word from the station goes in as text, never as markup.
function say(place, what) {
  place.textContent = what;
  place.hidden = !what;
}

async function post(path) {
  const headers = { "Content-Type": "application/json" };
  if (key.value) headers.Authorization = "Bearer " + encodeURIComponent(key.value);
  const answer = await fetch(path, { method: "POST", headers, body: JSON.stringify({ text: text.value }) });
  return answer.json();
}

function showRoom(answer) {
  room.classList.toggle("full", Boolean(answer.refused));
  room.textContent = answer.refused || `${answer.parts} of 9 parts; room for ${answer.left} more letters (a Chinese character takes the room of two)`;
}

// Only the answer to the latest question counts.
async function count() {
  const mine = ++asked;
  try {
    const answer = await post("count");
    if (mine === asked) showRoom(answer);
  } catch (lost) {
    if (mine === asked) showRoom({ refused: "the station does not answer" });
  }
}

function typed() {
  say(sent, "");
  clearTimeout(waiting);
  waiting = setTimeout(count, 150);
}

// A refusal leaves the text where it is.
async function send(event) {
  event.preventDefault();
  say(reason, "");
  say(sent, "");
  button.disabled = true;
  try {
    const answer = await post("send");
    if (answer.refused) {
      say(reason, "Not sent: " + answer.refused);
    } else {
      say(sent, `On air in ${answer.parts} ${answer.parts === 1 ? "part" : "parts"}.`);
      text.value = "";
      count();
    }
  } catch (lost) {
    say(reason, "No answer from the station: look at the board before you send it again.");
  }
  button.disabled = false;
  text.focus();
}

async function begin() {
  const about = await (await fetch("about")).json();
  at("key-row").hidden = !about.key;
  if (!about.key) count();
}

form.addEventListener("submit", send);
text.addEventListener("input", typed);
key.addEventListener("input", typed);
text.addEventListener("keydown", (event) => {
  if (event.key === "Enter" && (event.ctrlKey || event.metaKey)) form.requestSubmit();
});
begin();
