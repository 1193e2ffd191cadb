// The chosen statement in words: what answered, and what kept it out.

function wordsOfTarget(entry, target) {
  const kind = kindOf(target);
  if (kind !== "config") return data.targets[kind].words;
  return data.config[`${target.slice(7)} ${entry.words[1]}`].words;
}

function badge(target) {
  return element("span", `badge f-${familyOf(target)}`, target);
}

function answerLine(entry, part, denial) {
  const { target } = entry.replies[part];
  const line = element("p", "", [badge(target), " "]);
  if (!denial) {
    line.append(kindOf(target) === "abort" ? "nobody answers" : `answered by ${wordsOfTarget(entry, target)}`);
    return line;
  }
  line.append(kindOf(target) === "abort" ? "" : `${wordsOfTarget(entry, target)}; `);
  line.append(element("b", "denial", `⊘ ${denial.text.words}. `));
  if (denial.text.hint) line.append(element("span", "hint", `${denial.text.hint}. `));
  if (isOfRegister(denial)) line.append(denial.writer ? "Last written by " : "As after ", leadTo(denial.writer));
  return line;
}

function lookLine({ first, last, area }) {
  return element("p", "", [badge(area), ` from ${first} to ${last}`]);
}

function otherLine(number) {
  const other = given.get(number);
  if (!other) return [];
  const how = { agree: "the same", differ: "≠ another value", not: other.why }[other.how];
  return [element("p", "other", `${data.beside.name}: ${other.value}, ${how}`)];
}

function showAnswer() {
  const box = byId("answer");
  if (!place.at) {
    box.replaceChildren(element("p", "", "The board after its reset, before the first statement."));
    return;
  }
  const entry = entryOf(place.at);
  const denials = new Map(denialsOf(place.at).map((it) => [it.part, it]));
  const value = entry.value === "-" ? "" : entry.look ? ` at version ${entry.value}` : ` = ${entry.value}`;
  const head = element("p", "said", `${place.at}. ${entry.words.join(" ")}${value}`);
  const parts = entry.replies.map((_, part) => answerLine(entry, part, denials.get(part)));
  const lines = entry.look ? [lookLine(entry.look)] : parts;
  box.replaceChildren(head, ...lines, ...otherLine(place.at));
}
