"use strict";
// What the page was written with: the lines of the log, and all that Python said of them.

const data = JSON.parse(document.getElementById("data").textContent);
const logText = document.getElementById("log").textContent;

// Where each line of the log begins; that of statement n is the line n after the first.
const starts = (() => {
  const found = [];
  for (let at = logText.indexOf("\n"); at >= 0 && at + 1 < logText.length; at = logText.indexOf("\n", at + 1)) {
    found.push(at + 1);
  }
  return found;
})();
const count = starts.length;

function lineOf(number) {
  const end = number < count ? starts[number] - 1 : logText.length;
  return logText.slice(starts[number - 1], end).trimEnd();
}

// A line of the log in its parts: who, the words of the statement, the value, and each target with its denial.
function entryOf(number) {
  const line = lineOf(number);
  const equals = line.indexOf(" = ");
  const [, turn, ...words] = line.slice(0, equals).split(" ");
  const [value, ...rest] = line.slice(equals + 3).split(" ");
  const isLook = words[0] === "look";
  const replies = [];
  for (let k = 0; !isLook && k < rest.length; k += 2) replies.push({ target: rest[k], denial: rest[k + 1] });
  const look = isLook ? { first: rest[0], last: rest[1], area: rest[2] } : null;
  return { number, turn, words, value, replies, look };
}

function targetOf(entry) {
  return entry.look ? entry.look.area : entry.replies[0].target;
}

function kindOf(target) {
  const colon = target.indexOf(":");
  return colon < 0 ? target : target.slice(0, colon);
}

function familyOf(target) {
  return data.targets[kindOf(target)].family;
}

// The place of the last number of a rising list that is not above one, or -1.
function lastUpTo(list, number) {
  let low = 0;
  let high = list.length;
  while (low < high) {
    const middle = (low + high) >> 1;
    if (list[middle] <= number) low = middle + 1;
    else high = middle;
  }
  return low - 1;
}

// The denied parts of a statement: the words for it, and the statement that wrote last what denied it.
function denialsOf(number) {
  const [numbers, parts, texts, writers] = data.denied;
  const found = [];
  for (let k = lastUpTo(numbers, number - 1) + 1; numbers[k] === number; k++) {
    found.push({ part: parts[k], text: data.denials[texts[k]], writer: writers[k] });
  }
  return found;
}

// Whether it is a register that denied, which leads to its last write; else there is none.
function isOfRegister(denial) {
  return denial.text.place !== "none";
}

// The values of another monitor by statement, where there are such.
const given = new Map();
if (data.beside) {
  const [numbers, values, hows, lines, whys] = data.beside.rows;
  numbers.forEach((number, k) => {
    const how = ["agree", "differ", "not"][hows[k]];
    const why = [whys[k] && `not compared: ${whys[k]}`, lines[k] && `line ${lines[k]} of the trace`];
    given.set(number, { value: values[k], how, why: why.filter(Boolean).join("; ") });
  });
}

// An element with a class, its content and what else it has.
function element(tag, className, content, more) {
  const it = document.createElement(tag);
  if (className) it.className = className;
  if (content !== undefined) it.append(...[].concat(content));
  return Object.assign(it, more);
}

function byId(id) {
  return document.getElementById(id);
}
