// The values of another monitor: the differences by kinds, the first one first, and the counts by what answered.

const FEW_NUMBERS = 12; // of the statements of a kind that are named

function differenceText(number) {
  return `${number}: ${given.get(number).value}, here ${entryOf(number).value}`;
}

function kindItem(kind) {
  const leads = kind.numbers.slice(0, FEW_NUMBERS).map((it) => leadTo(it, differenceText(it)));
  const rest = kind.numbers.length - leads.length;
  const more = rest > 0 ? [` and ${rest} more`] : [];
  return element("li", "", [element("b", "", kind.name), ` (${kind.numbers.length}) `, ...leads, ...more]);
}

function countTable(counts) {
  const head = ["answered by", "agree", "differ", "not compared"];
  const row = (cells, tag) => element("tr", "", cells.map((it, k) => element(k ? tag : "th", "", String(it))));
  return element("table", "counts", [row(head, "th"), ...counts.map((it) => row(it, "td"))]);
}

function startBeside() {
  const box = byId("beside");
  if (!data.beside) return;
  document.body.classList.add("with-other");
  const { name, kinds, counts } = data.beside;
  const total = kinds.reduce((sum, it) => sum + it.numbers.length, 0);
  const title = total ? `${total} of its values differ, of ${kinds.length} kinds` : "all of its values agree";
  const details = element("details", "", [
    element("summary", "", [element("b", "", name), ` ${title}`]),
    element("ol", "", kinds.map(kindItem)),
    element("details", "", [element("summary", "", "counts by what answered"), countTable(counts)]),
  ]);
  details.open = total > 0;
  box.replaceChildren(details);
}

function nextDifference(step) {
  if (data.beside) nextIn(data.beside.kinds.flatMap((it) => it.numbers).sort((a, b) => a - b), step);
}
