// The registers after the chosen statement, by chip. What the statement changed is marked.

const registerRows = []; // each with its register, and the value that is drawn

function fieldSpans(register, held, before) {
  const [, texts] = register.shown[held];
  const old = before === null ? null : register.shown[before][1];
  return register.fields.map(([name, bits], k) => {
    const isChanged = old !== null && old[k][0] !== texts[k][0];
    const parts = [element("span", "bits", bits), " ", element("b", "", name), ` ${texts[k][1]}`];
    const title = isChanged ? `before: ${old[k][1]}` : "";
    return element("span", `field${isChanged ? " changed" : ""}`, parts, { title });
  });
}

function drawRegister(row) {
  const { register } = row;
  const k = lastUpTo(register.at, place.at);
  const isChanged = place.at > 0 && register.at[k] === place.at;
  const key = `${k} ${isChanged}`;
  if (row.key === key) return isChanged;
  row.key = key;
  const held = register.held[k];
  const since = register.at[k];
  const title = since ? `changed by statement ${since}` : "as after the reset";
  row.element.classList.toggle("changed", isChanged);
  row.element.replaceChildren(
    element("th", "name", leadTo(since, register.name, title), { scope: "row" }),
    element("td", "place", register.place),
    element("td", "digits", (isChanged ? "● " : "") + register.shown[held][0]),
    element("td", "fields", fieldSpans(register, held, isChanged ? register.held[k - 1] : null)),
  );
  return isChanged;
}

// Scrolls the registers so far that one is seen, below their heading; the page stays where it is.
function seeRegister(row) {
  const box = byId("below");
  const seen = box.getBoundingClientRect();
  const here = row.getBoundingClientRect();
  const top = seen.top + box.querySelector("h2").offsetHeight;
  if (here.top < top) box.scrollTop -= top - here.top;
  else if (here.bottom > seen.bottom) box.scrollTop += here.bottom - seen.bottom;
}

function showRegisters() {
  const changed = registerRows.filter(drawRegister);
  byId("changes").textContent = changed.length ? `changed: ${changed.map((row) => row.register.name).join(", ")}` : "";
  if (changed.length) seeRegister(changed[0].element);
}

function startRegisters() {
  const chips = data.chips.map((chip) => {
    const rows = chip.registers.map((register) => {
      const row = { register, key: "", element: element("tr", "register") };
      row.element.dataset.place = register.place;
      registerRows.push(row);
      return row.element;
    });
    const head = element("h3", "", [chip.name, " ", element("small", "", chip.place)]);
    return element("div", "chip", [head, element("table", "", element("tbody", "", rows))]);
  });
  byId("registers").replaceChildren(...chips);
}
