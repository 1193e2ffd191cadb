// The flat map after the chosen statement. What it changed lights up; a range leads to the write that made it.

const KIND_NAMES = ["fetch", "read", "write", "fetch", "read", "write"];
let drawnMap = "";

function versionAt(number) {
  return lastUpTo(data.maps.at, number);
}

function rangesOf(version) {
  return data.maps.versions[version].map((it) => data.maps.ranges[it]);
}

function hex8(number) {
  return number.toString(16).toUpperCase().padStart(8, "0");
}

function sizeText(first, last) {
  const bytes = last - first + 1;
  for (const [unit, name] of [[2 ** 30, "GiB"], [2 ** 20, "MiB"], [2 ** 10, "KiB"]]) {
    if (bytes >= unit) return `${Number((bytes / unit).toFixed(2))} ${name}`;
  }
  return `${bytes} bytes`;
}

// The areas that one kind of access had in a range of another map, each once.
function areasBefore(ranges, first, last, column) {
  const found = new Set();
  for (const range of ranges) {
    if (range[0] <= last && range[1] >= first) found.add(range[2][column]);
  }
  return found;
}

// The column and the address of the access of a statement, where it is one to memory.
function accessOf(number) {
  if (!number) return null;
  const { words } = entryOf(number);
  const kind = words[0] === "look" ? words[1] : words[0];
  const isMemory = ["f", "r", "w"].includes(words[0]) || words[0] === "look";
  if (!isMemory) return null;
  const column = data.maps.kinds.indexOf(words.at(-1) === "smm" ? `${kind} smm` : kind);
  return { column, address: Number.parseInt(words[2], 16) };
}

// Neighbouring columns that look alike, as one: the first, how many, and what is in them.
function joinedColumns(range, before, access) {
  const columns = [];
  range[2].forEach((area, k) => {
    const was = before ? areasBefore(before, range[0], range[1], k) : new Set([area]);
    const isChanged = was.size > 1 || !was.has(area);
    const isHit = Boolean(access) && access.column === k && range[0] <= access.address && access.address <= range[1];
    const last = columns.at(-1);
    const isSame = last && last.area === area && last.isChanged === isChanged && !last.isHit && !isHit;
    if (isSame) last.span += 1;
    else columns.push({ area, isChanged, isHit, span: 1, was: [...was].map((it) => data.maps.areas[it]).join(", ") });
  });
  return columns;
}

// A cell also where the row of a narrow map is a grid of twelve columns, two for each kind of access.
function spanned(cell) {
  cell.style.setProperty("--columns", `span ${2 * cell.colSpan}`);
  return cell;
}

// An area, which a narrow cell may break after its colon.
function breakable(area) {
  return area.split(/(?<=:)/).flatMap((text, k) => (k ? [element("wbr"), text] : [text]));
}

function areaCell(column) {
  const area = data.maps.areas[column.area];
  const marks = (column.isHit ? "▸ " : "") + (column.isChanged ? "● " : "");
  const cellName = `area f-${familyOf(area)}${column.isChanged ? " changed" : ""}${column.isHit ? " hit" : ""}`;
  const title = [column.isHit && "the chosen access", column.isChanged && `before: ${column.was}`];
  const more = { colSpan: column.span, title: title.filter(Boolean).join("; ") };
  return spanned(element("td", cellName, [marks, ...breakable(area)], more));
}

function rangeRow(range, before, access) {
  const [first, last, , since] = range;
  const row = element("tr", "range", [
    element("th", "addresses", `${hex8(first)} to ${hex8(last)}`, { scope: "row" }),
    element("td", "size", sizeText(first, last)),
    ...joinedColumns(range, before, access).map(areaCell),
    element("td", "since", leadTo(since, null, "to the write that made this range so")),
  ]);
  row.dataset.range = `${hex8(first)} ${hex8(last)}`;
  row.onclick = (event) => event.target.closest("button") || follow(since);
  return row;
}

function mapHead() {
  const top = element("tr", "", [
    element("th", "aside", "addresses", { rowSpan: 2 }),
    element("th", "aside", "", { rowSpan: 2 }),
    spanned(element("th", "", "outside SMM", { colSpan: 3 })),
    spanned(element("th", "", "in SMM", { colSpan: 3 })),
    element("th", "aside", "so since", { rowSpan: 2 }),
  ]);
  const kinds = KIND_NAMES.map((name) => spanned(element("th", "", name)));
  return element("thead", "", [top, element("tr", "", kinds)]);
}

function showMap() {
  const version = versionAt(place.at);
  const isWrite = place.at > 0 && data.maps.at[version] === place.at;
  const access = accessOf(place.at);
  const key = JSON.stringify([version, isWrite, access]);
  if (key === drawnMap) return;
  drawnMap = key;
  const before = isWrite ? rangesOf(version - 1) : null;
  const rows = rangesOf(version).map((range) => rangeRow(range, before, access));
  const widths = ["addresses", "size", ...KIND_NAMES.map(() => "area"), "since"];
  const columns = element("colgroup", "", widths.map((name) => element("col", `${name}-width`)));
  byId("map").replaceChildren(element("table", "", [columns, mapHead(), element("tbody", "", rows.reverse())]));
  const lit = byId("map").querySelectorAll(".changed").length;
  const what = isWrite ? (lit ? ", changed by this statement" : ", a map write that changed nothing") : "";
  byId("version").textContent = `version ${version} of ${data.maps.at.length - 1}${what}`;
}
