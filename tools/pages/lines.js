// The interrupt lines and the outputs of the 8254 over the statements, with the acknowledges and their vectors.

const SVG = "http://www.w3.org/2000/svg";
const NAME_WIDTH = 118;
const LINE_HEIGHT = 20;
const HIGH = 4;
const LOW = 15;
const VECTOR_WIDTH = 18; // of a vector that is written out
const SPURIOUS_WIDTH = 84; // of one with the word
const LEAST_SPAN = 10;
const acknowledged = data.acknowledges.map((it) => it[0]);
const view = { first: 1, span: 60 };
const movingLines = data.lines.filter((it) => it.turns.length || it.pulses.length);

function svg(tag, attributes, text) {
  const it = document.createElementNS(SVG, tag);
  for (const [name, value] of Object.entries(attributes)) it.setAttribute(name, value);
  if (text !== undefined) it.textContent = text;
  return it;
}

function levelAfter(line, number) {
  const turns = lastUpTo(line.turns, number) + 1;
  return line.first ^ (turns & 1);
}

// Where the middle of a statement is drawn.
function xOf(number, width) {
  return NAME_WIDTH + ((number - view.first + 0.5) / view.span) * width;
}

function inView(list) {
  return list.slice(lastUpTo(list, view.first - 1) + 1, lastUpTo(list, view.first + view.span - 1) + 1);
}

// A line as a path. Turns that fall on one dot are drawn as one stroke.
function levelPath(line, top, width) {
  const yOf = (level) => top + (level ? HIGH : LOW);
  let level = levelAfter(line, view.first - 1);
  let path = `M${NAME_WIDTH} ${yOf(level)}`;
  let dot = -1;
  for (const turn of inView(line.turns)) {
    const x = Math.round(xOf(turn, width));
    if (x !== dot) path += `V${yOf(level)}H${x}V${yOf(level ^ 1)}`;
    level ^= 1;
    dot = x;
  }
  return `${path}V${yOf(level)}H${NAME_WIDTH + width}`;
}

function pulsePath(line, top, width) {
  const dots = new Set(inView(line.pulses).map((it) => Math.round(xOf(it, width))));
  return [...dots].map((x) => `M${x - 2} ${top + HIGH}L${x} ${top + LOW}L${x + 2} ${top + HIGH}`).join("");
}

function nameText(y, name, more) {
  const text = svg("text", { x: NAME_WIDTH - 8, y: y + LOW - 1, class: "name" });
  text.append(svg("tspan", { class: "source" }, more ? `${more} ` : ""), svg("tspan", {}, name));
  return text;
}

function lineGroup(line, top, width) {
  const levels = levelPath(line, top, width);
  const area = `${levels}V${top + LOW}H${NAME_WIDTH}Z`;
  return [
    nameText(top, line.name, line.source),
    svg("path", { d: area, class: "under" }),
    svg("path", { d: levels, class: "level" }),
    svg("path", { d: pulsePath(line, top, width), class: "level" }),
  ];
}

function acknowledgeMarks(top, width) {
  const marks = [nameText(top, "ack", "vectors")];
  let dot = -1;
  for (let k = lastUpTo(acknowledged, view.first - 1) + 1; acknowledged[k] < view.first + view.span; k++) {
    const x = xOf(acknowledged[k], width);
    if (Math.round(x) === dot) continue;
    dot = Math.round(x);
    const room = xOf(acknowledged[k + 1] || Infinity, width) - x;
    marks.push(acknowledgeMark(data.acknowledges[k], x, top, room));
  }
  return marks;
}

// An acknowledge at its place; its vector is written out where there is room before the next.
function acknowledgeMark([number, vector, target], x, top, room) {
  const isSpurious = target.startsWith("spur");
  const mark = svg("g", { class: isSpurious ? "ack spurious" : "ack", "data-number": number });
  mark.append(svg("title", {}, `statement ${number}: ${vector}, ${data.targets[target].words}`));
  mark.append(svg("path", { d: `M${x} ${top + 2}V${top + LOW}` }));
  const text = isSpurious && room > SPURIOUS_WIDTH ? `${vector} spurious` : vector;
  if (room > VECTOR_WIDTH) mark.append(svg("text", { x: x + 2, y: top + LOW - 2 }, text));
  return mark;
}

function ticks(height, width) {
  const step = [1, 2, 5].flatMap((it) => [1, 10, 100, 1e3, 1e4, 1e5].map((ten) => it * ten)).sort((a, b) => a - b)
    .find((it) => (it / view.span) * width > 60) || count;
  const found = [];
  for (let number = Math.ceil(view.first / step) * step; number < view.first + view.span; number += step) {
    if (number < 1 || number > count) continue;
    const x = xOf(number, width);
    found.push(svg("path", { d: `M${x} 0V${height}`, class: "tick" }));
    found.push(svg("text", { x, y: height + 12, class: "tick" }, String(number)));
  }
  return found;
}

function cursor(height, width) {
  if (place.at < view.first) return [];
  const one = Math.max(width / view.span, 2);
  return [svg("rect", { x: xOf(place.at, width) - one / 2, y: 0, width: one, height, class: "cursor" })];
}

function unasked(height, width) {
  if (view.first + view.span - 1 <= data.linesUntil) return [];
  const x = Math.max(xOf(data.linesUntil + 0.5, width), NAME_WIDTH);
  const end = Math.min(xOf(count + 0.5, width), NAME_WIDTH + width);
  return data.linesUntil < count && end > x ? [svg("rect", { x, y: 0, width: end - x, height, class: "unasked" })] : [];
}

// Keeps the chosen statement in view, and no more than there is.
function turnView() {
  view.span = Math.min(Math.max(view.span, LEAST_SPAN), Math.max(count, LEAST_SPAN));
  const margin = view.span / 10;
  const isIn = view.first + margin <= place.at && place.at <= view.first + view.span - margin;
  if (!isIn) view.first = Math.round(place.at - view.span / 2);
  view.first = Math.max(1, Math.min(view.first, count - view.span + 1));
}

function showLines() {
  const box = byId("diagram");
  if (!movingLines.length && !data.acknowledges.length) return;
  turnView();
  const width = Math.max(box.clientWidth - NAME_WIDTH - 12, 100);
  const rows = movingLines.length + (data.acknowledges.length ? 1 : 0);
  const height = rows * LINE_HEIGHT + 4;
  const size = { width: NAME_WIDTH + width + 12, height: height + 16 };
  const picture = svg("svg", { ...size, role: "img", "aria-label": "timing diagram" });
  picture.append(...ticks(height, width), ...cursor(height, width), ...unasked(height, width));
  movingLines.forEach((line, k) => picture.append(...lineGroup(line, k * LINE_HEIGHT, width)));
  if (data.acknowledges.length) picture.append(...acknowledgeMarks(movingLines.length * LINE_HEIGHT, width));
  picture.addEventListener("click", (event) => {
    const x = event.clientX - picture.getBoundingClientRect().left - NAME_WIDTH;
    if (x >= 0) choose(view.first + Math.min(Math.floor((x / width) * view.span), view.span - 1));
  });
  box.replaceChildren(picture);
}

function zoom(factor) {
  const middle = place.at || view.first + view.span / 2;
  view.span = Math.round(view.span * factor);
  view.first = Math.round(middle - view.span / 2);
  showLines();
}

function startLines() {
  const isStill = !movingLines.length && !data.acknowledges.length;
  const still = "no interrupt line moves in this log, and nothing is acknowledged";
  const ended = data.linesUntil < count ? `; the levels were asked up to statement ${data.linesUntil}` : "";
  const note = `levels after each statement; a notch: down and up again within one${ended}`;
  byId("lines-note").textContent = isStill ? still : note;
  document.body.classList.toggle("still", isStill);
  byId("closer").onclick = () => zoom(1 / 2);
  byId("wider").onclick = () => zoom(2);
  byId("whole").onclick = () => zoom(count);
  new ResizeObserver(showLines).observe(byId("diagram"));
}
