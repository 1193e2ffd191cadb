// The search box. Words that stand together must all hold; one with a minus before it must not.

const SEARCH_PIECE = 20000; // statements that are looked at before the browser may do something else
const EXAMPLES = ["denied", "target:smram", "addr:E0000-FFFFF", "port:20-21", "reg:PAM", "cpu:0", "smm", "differs"];
let tests = [];
let matches = null; // the numbers of the statements that were found, or null where nothing is searched
let searching = 0;

function rangeOf(text) {
  const [first, last] = text.split("-").map((it) => Number.parseInt(it, 16));
  return Number.isNaN(first) ? null : [first, Number.isNaN(last) || last === undefined ? first : last];
}

const WIDTH_BYTES = { b: 1, w: 2, d: 4, q: 8 };

// Asks whether an access that begins with one of these words meets a range.
function accessIn(range, beginnings) {
  return (_, entry) => {
    const { words } = entry();
    if (!range || !beginnings.includes(words[0])) return false;
    const first = Number.parseInt(words[2], 16);
    const last = first + (words[0] === "look" ? 1 : WIDTH_BYTES[words[1]]) - 1;
    return first <= range[1] && last >= range[0];
  };
}

function namesOf(number, entry) {
  const denied = denialsOf(number).flatMap((it) => [it.text.name, it.text.place]);
  const reached = entry.replies.filter((it) => it.target.startsWith("config:"))
    .flatMap((it) => [it.target.slice(7), data.config[`${it.target.slice(7)} ${entry.words[1]}`].names]);
  return [...denied, ...reached].join(" ").toUpperCase();
}

function targetsOf(entry) {
  return entry.look ? entry.look.area : entry.replies.map((it) => it.target).join(" ");
}

// What a word of the search asks of a statement, whose entry is made where it is needed.
const ASKED = {
  target: (text) => (_, entry) => targetsOf(entry()).includes(text),
  addr: (text) => accessIn(rangeOf(text), ["r", "f", "w", "look"]),
  port: (text) => accessIn(rangeOf(text), ["in", "out"]),
  reg: (text) => {
    const name = text.toUpperCase();
    return (number, entry) => namesOf(number, entry()).includes(name);
  },
  cpu: (text) => (_, entry) => entry().turn.split(".")[0] === text,
};
const ALONE = {
  denied: () => (number) => denialsOf(number).length > 0,
  differs: () => (number) => given.get(number)?.how === "differ",
  smm: () => (_, entry) => entry().words.at(-1) === "smm",
};

function testOf(word) {
  const isNot = word.startsWith("-") && word.length > 1;
  const text = isNot ? word.slice(1) : word;
  const colon = text.indexOf(":");
  const name = text.slice(0, colon).toLowerCase();
  const test = ALONE[text] ? ALONE[text]() : ASKED[name] ? ASKED[name](text.slice(colon + 1)) : null;
  const plain = text.toUpperCase();
  const found = test || ((number) => lineOf(number).toUpperCase().includes(plain));
  return isNot ? (number, entry) => !found(number, entry) : found;
}

function isFound(number) {
  let made = null;
  const entry = () => (made ||= entryOf(number));
  return tests.every((test) => test(number, entry));
}

function isMatch(number) {
  return matches !== null && matches[lastUpTo(matches, number)] === number;
}

function tellFound(isDone) {
  const here = matches ? lastUpTo(matches, place.at) + 1 : 0;
  const text = matches === null ? "" : `${here} of ${matches.length}${isDone ? "" : " .."}`;
  byId("found").textContent = text;
  document.body.classList.toggle("searching", matches !== null && !place.only);
}

function showMatches(isDone) {
  shown = matches !== null && place.only ? matches : null;
  sizeList();
  seeChosen();
  renewList();
  tellFound(isDone);
}

function searchFrom(first) {
  const last = Math.min(first + SEARCH_PIECE, count + 1);
  for (let number = first; number < last; number++) if (isFound(number)) matches.push(number);
  const isDone = last > count;
  if (isDone || first === 1) showMatches(isDone);
  else tellFound(false);
  if (!isDone) searching = setTimeout(() => searchFrom(last), 0);
}

function search() {
  clearTimeout(searching);
  const words = place.find.trim().split(/\s+/).filter(Boolean);
  tests = words.map(testOf);
  matches = words.length ? [] : null;
  if (matches) searchFrom(1);
  else showMatches(true);
}

// The next statement of a rising list, or the last one before, by the sign of a step; round at the ends.
function nextIn(numbers, step) {
  if (!numbers || !numbers.length) return;
  const here = lastUpTo(numbers, place.at);
  const before = numbers[here] === place.at ? here - 1 : here;
  const next = step > 0 ? here + 1 : before;
  choose(numbers[(next + numbers.length) % numbers.length]);
}

function startSearch() {
  const examples = EXAMPLES.filter((it) => it !== "differs" || data.beside);
  byId("examples").replaceChildren(...examples.map((it) => element("option", "", undefined, { value: it })));
  const input = byId("find");
  input.addEventListener("input", () => {
    place.find = input.value;
    search();
    keepHash();
  });
  input.addEventListener("keydown", (event) => {
    if (event.key === "Enter") nextIn(matches, event.shiftKey ? -1 : 1);
    if (event.key === "Escape") list.focus();
  });
  byId("search").addEventListener("submit", (event) => event.preventDefault());
  byId("only").addEventListener("change", (event) => {
    place.only = event.target.checked;
    showMatches(true);
    keepHash();
  });
  byId("before").onclick = () => nextIn(matches, -1);
  byId("after").onclick = () => nextIn(matches, 1);
  whenMoved(() => tellFound(true));
}

// Takes the search of the page's address.
function takeSearch() {
  byId("find").value = place.find;
  byId("only").checked = place.only;
  search();
}
