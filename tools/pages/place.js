// The statement that is chosen and what is searched. The address of the page keeps both.

const place = { at: 0, find: "", only: true };
const watchers = [];

function whenMoved(watcher) {
  watchers.push(watcher);
}

function hashOf() {
  const words = [`at=${place.at}`];
  if (place.find) words.push(`find=${encodeURIComponent(place.find)}`);
  if (!place.only) words.push("only=0");
  return `#${words.join("&")}`;
}

function readHash() {
  const words = new URLSearchParams(location.hash.slice(1));
  place.find = words.get("find") || "";
  place.only = words.get("only") !== "0";
  return Number.parseInt(words.get("at") || "0", 10) || 0;
}

let writing = 0;

// Browsers refuse an address that changes too often, so the last of a row of moves is kept.
function keepHash() {
  clearTimeout(writing);
  writing = setTimeout(() => history.replaceState(null, "", hashOf()), 150);
}

let moving = 0;

function tellWatchers() {
  moving = 0;
  for (const watcher of watchers) watcher();
}

// Chooses a statement; 0 is the board after its reset. However many are chosen before the next frame, it is drawn once.
function choose(number) {
  place.at = Math.min(Math.max(Math.trunc(number) || 0, 0), count);
  keepHash();
  moving ||= requestAnimationFrame(tellWatchers);
}

// Chooses a statement so that the browser's way back leads here again.
function follow(number) {
  clearTimeout(writing);
  history.replaceState(null, "", hashOf());
  place.at = number;
  history.pushState(null, "", hashOf());
  choose(number);
}

// A button that leads to a statement.
function leadTo(number, content, title) {
  const text = content || (number ? `${number}: ${entryOf(number).words.join(" ")}` : "the reset");
  return element("button", "lead", text, { type: "button", title: title || "", onclick: () => follow(number) });
}
