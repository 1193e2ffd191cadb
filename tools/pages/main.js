// Puts the parts together: the bar, the keys, the beginning.

const KEYS = [
  ["↑ ↓, ← →", "the statement before, the next"],
  ["Page Up, Page Down", "a page of statements"],
  ["Home, End", "after the reset, the last statement"],
  ["D, Shift+D", "the next denied access, the one before"],
  ["W", "to the last write of the register that denied the access"],
  ["M, Shift+M", "the next map write, the one before"],
  ["N, Shift+N", "the next match, the one before"],
  ["X, Shift+X", "the next difference, the one before"],
  ["/", "to the search box; Escape leaves it"],
  ["+, -, 0", "fewer, more, all statements in the diagram"],
  ["Alt+←", "back to where a click led away"],
  ["T", "light or dark"],
];

function rowsOnPage() {
  return Math.max(Math.floor(list.clientHeight / rowHeight) - 1, 1);
}

// So many rows on: of the statements that are shown.
function step(rows) {
  if (!shown) return choose(place.at + rows);
  const here = rowOf(place.at);
  const isOnRow = here >= 0 && shown[here] === place.at;
  const next = rows < 0 && !isOnRow ? here + 1 + rows : here + rows;
  if (shown.length) choose(shown[Math.min(Math.max(next, 0), shown.length - 1)]);
}

function toWriter() {
  const denial = denialsOf(place.at).find(isOfRegister);
  if (denial) follow(denial.writer);
}

function turnTheme() {
  const isDark = getComputedStyle(document.documentElement).colorScheme.includes("dark");
  document.documentElement.style.colorScheme = isDark ? "light" : "dark";
}

const DOES = {
  ArrowUp: () => step(-1),
  ArrowLeft: () => step(-1),
  ArrowDown: () => step(1),
  ArrowRight: () => step(1),
  PageUp: () => step(-rowsOnPage()),
  PageDown: () => step(rowsOnPage()),
  Home: () => choose(0),
  End: () => choose(count),
  d: () => nextIn(data.denied[0], 1),
  D: () => nextIn(data.denied[0], -1),
  w: toWriter,
  m: () => nextIn(data.maps.at.slice(1), 1),
  M: () => nextIn(data.maps.at.slice(1), -1),
  n: () => nextIn(matches, 1),
  N: () => nextIn(matches, -1),
  x: () => nextDifference(1),
  X: () => nextDifference(-1),
  "/": () => byId("find").select(),
  "+": () => zoom(1 / 2),
  "-": () => zoom(2),
  0: () => zoom(count),
  t: turnTheme,
  "?": () => byId("keys").showModal(),
};

function onKey(event) {
  const isText = event.target.matches("input[type=search], input[type=number]");
  const isMeant = !isText && !event.ctrlKey && !event.altKey && !event.metaKey && !byId("keys").open;
  const does = isMeant && DOES[event.key];
  if (!does) return;
  event.preventDefault();
  does();
}

function startBar() {
  const slider = byId("slider");
  const number = byId("number");
  slider.max = number.max = count;
  byId("total").textContent = `of ${count}`;
  slider.addEventListener("input", () => choose(slider.valueAsNumber));
  number.addEventListener("change", () => choose(number.valueAsNumber));
  byId("first").onclick = () => choose(0);
  byId("previous").onclick = () => step(-1);
  byId("next").onclick = () => step(1);
  byId("denied").onclick = () => nextIn(data.denied[0], 1);
  byId("denied").disabled = !data.denied[0].length;
  byId("theme").onclick = turnTheme;
  byId("help").onclick = () => byId("keys").showModal();
  whenMoved(() => {
    slider.value = number.value = place.at;
    slider.setAttribute("aria-valuetext", place.at ? `statement ${place.at}` : "after the reset");
  });
}

function startTexts() {
  const denied = new Set(data.denied[0]).size;
  byId("title").textContent = data.title;
  const counts = `${count} statements, ${denied} denied, ${data.maps.at.length - 1} map writes`;
  byId("about").textContent = `${data.setup.slice(1).join(", ")}: ${counts}`;
  const rows = KEYS.map(([keys, what]) => element("tr", "", [element("th", "", keys), element("td", "", what)]));
  const close = element("button", "", "close", { type: "button", onclick: () => byId("keys").close() });
  byId("keys").replaceChildren(element("h2", "", "Keys"), element("table", "", rows), close);
}

function takeAddress() {
  const at = readHash();
  takeSearch();
  choose(at);
}

function start() {
  startTexts();
  startBar();
  startBeside();
  startRegisters();
  startList();
  startSearch();
  startLines();
  whenMoved(showAnswer);
  whenMoved(showMap);
  whenMoved(showRegisters);
  whenMoved(showLines);
  document.addEventListener("keydown", onKey);
  window.addEventListener("hashchange", takeAddress);
  window.addEventListener("popstate", takeAddress);
  takeAddress();
  list.focus({ preventScroll: true });
}

start();
