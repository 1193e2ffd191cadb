// The statements with their replies. Rows are made when they are seen.

const SPARE_ROWS = 6;
const list = byId("list");
const listWindow = byId("window");
let drawn = new Map(); // the rows that are there, by their numbers
let shown = null; // the numbers of the matches where these alone are shown, else null
let rowHeight = 0; // as the style has it: it depends on the width

function rowCount() {
  return shown ? shown.length : count;
}

function numberAt(row) {
  return shown ? shown[row] : row + 1;
}

// The row of a statement, or of the last one before it.
function rowOf(number) {
  return shown ? lastUpTo(shown, number) : number - 1;
}

function cell(name, text) {
  return element("span", name, text);
}

function otherCell(number) {
  const other = given.get(number);
  if (!other) return cell("other", "");
  const mark = { differ: "≠ ", not: "? ", agree: "" }[other.how];
  return element("span", `other ${other.how}`, mark + other.value, { title: other.why });
}

function markOf(number) {
  const denials = denialsOf(number);
  if (!denials.length) return cell("mark", "");
  const { text, writer } = denials[0];
  const words = `⊘ ${text.mark}${denials.length > 1 ? ` (${denials.length} parts)` : ""}`;
  if (!isOfRegister(denials[0])) return cell("mark", words);
  const title = writer ? `to the last write of it, statement ${writer}` : "it is as after the reset";
  const lead = leadTo(writer, words, title);
  lead.tabIndex = -1;
  return element("span", "mark", lead);
}

function answeredBy(entry) {
  const { look, replies } = entry;
  return look ? `${look.area} ${look.first} to ${look.last}` : replies.map((it) => it.target).join(" ");
}

function rowFor(number) {
  const entry = entryOf(number);
  const value = entry.look ? `version ${entry.value}` : entry.value.replace("-", "");
  const row = element("div", `row f-${familyOf(targetOf(entry))}`, [
    cell("number", String(number)),
    cell("turn", entry.turn),
    cell("statement", entry.words.join(" ")),
    ...(value ? [cell("value", value)] : []),
    ...(data.beside ? [otherCell(number)] : []),
    element("span", "answered", [cell("target", answeredBy(entry)), ...(entry.look ? [] : [markOf(number)])]),
  ]);
  row.id = `s${number}`;
  row.dataset.number = number;
  row.setAttribute("role", "option");
  row.classList.toggle("match", isMatch(number));
  row.classList.toggle("look", Boolean(entry.look));
  row.classList.toggle("wrote", value === "");
  row.classList.toggle("denied", denialsOf(number).length > 0);
  return row;
}

// Draws the rows that are seen. Those that are there already stay.
function drawList() {
  const first = Math.max(0, Math.floor(list.scrollTop / rowHeight) - SPARE_ROWS);
  const last = Math.min(rowCount(), Math.ceil((list.scrollTop + list.clientHeight) / rowHeight) + SPARE_ROWS);
  const rows = new Map();
  for (let row = first; row < last; row++) {
    const number = numberAt(row);
    rows.set(number, drawn.get(number) || rowFor(number));
  }
  const added = [...rows.values()].filter((row) => !row.isConnected);
  for (const [number, row] of drawn) if (!rows.has(number)) row.remove();
  let here = listWindow.firstChild;
  for (const row of rows.values()) {
    if (row === here) here = here.nextSibling;
    else listWindow.insertBefore(row, here);
  }
  drawn = rows;
  listWindow.style.transform = `translateY(${first * rowHeight}px)`;
  tighten(added);
  markChosen();
}

// Rows with a text that is cut give up their columns, so that the texts have all the room of the row.
function tighten(rows) {
  const isCut = (it) => it.scrollWidth > it.clientWidth;
  const cut = rows.filter((row) => [...row.querySelectorAll("span")].some(isCut));
  for (const row of cut) row.classList.add("tight");
}

function markChosen() {
  const old = listWindow.querySelector(".chosen");
  const row = drawn.get(place.at);
  if (old && old !== row) old.classList.remove("chosen");
  if (old && old !== row) old.removeAttribute("aria-selected");
  if (!row) return;
  row.classList.add("chosen");
  row.setAttribute("aria-selected", "true");
  list.setAttribute("aria-activedescendant", row.id);
}

// Makes all rows anew, as where other ones are matches.
function renewList() {
  drawn = new Map();
  listWindow.replaceChildren();
  drawList();
}

function sizeList() {
  rowHeight = Number.parseFloat(getComputedStyle(list).getPropertyValue("--row-height"));
  byId("space").style.height = `${rowCount() * rowHeight}px`;
}

// Scrolls so far that the chosen statement is seen.
function seeChosen() {
  const top = Math.max(rowOf(place.at), 0) * rowHeight;
  const room = list.clientHeight;
  if (top < list.scrollTop || top + rowHeight > list.scrollTop + room) {
    const isNear = top > list.scrollTop - 2 * rowHeight && top < list.scrollTop + room + rowHeight;
    list.scrollTop = isNear ? (top < list.scrollTop ? top : top + rowHeight - room) : top - room / 2;
  }
}

function headList() {
  const other = data.beside ? { other: data.beside.name } : {};
  const names = { number: "no.", turn: "who", statement: "statement", value: "read", ...other };
  const cells = Object.entries(names).map(([name, text]) => cell(name, text));
  const answered = element("span", "answered", [cell("target", "answered by"), cell("mark", "kept out by")]);
  byId("heads").replaceChildren(...cells, answered);
}

let fittedWidth = 0;

// Rows depend on the width; how many are seen on the height too.
function fitList() {
  const isOther = list.clientWidth !== fittedWidth;
  fittedWidth = list.clientWidth;
  sizeList();
  drawSoon();
  if (!isOther) return;
  for (const row of drawn.values()) row.classList.remove("tight");
  tighten([...drawn.values()]);
}

let drawing = 0;

function drawSoon() {
  cancelAnimationFrame(drawing);
  drawing = requestAnimationFrame(drawList);
}

function startList() {
  const digits = String(count).length;
  byId("statements").style.setProperty("--number-width", `${Math.max(digits, 3) + 1}ch`);
  byId("statements").style.setProperty("--turn-width", `${Math.max(digits, 2) + 2}ch`);
  headList();
  sizeList();
  list.addEventListener("scroll", drawSoon, { passive: true });
  new ResizeObserver(fitList).observe(list);
  listWindow.addEventListener("click", (event) => {
    const row = event.target.closest(".row");
    if (row && !event.target.closest("button")) choose(Number(row.dataset.number));
  });
  whenMoved(() => {
    seeChosen();
    drawList();
  });
}
