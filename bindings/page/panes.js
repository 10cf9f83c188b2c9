// The hex dump and the tree of items.

const TEXTS = ["data", "extraData", "id"];
const printable = (bytes) => bytes.length > 0 && bytes.every((byte) => byte >= 0x20 && byte < 0x7f);
const letters = (bytes) => String.fromCharCode(...bytes);

function shortHex(bytes, most) {
  return bytes.length <= most ? toHex(bytes) : `${toHex(bytes.subarray(0, most))}… (${counted(bytes.length, "byte")})`;
}

function nameOf(item) {
  return view.depth(item) > 0 ? view.names.get(view.offset(item)) : undefined;
}

/** Whether a string may be shown as text: not an address, a hash or a number, whatever its bytes are. */
function isText(item) {
  const length = view.payload(item);
  if (!view.record) return length !== 20 && length !== 32;
  const name = nameOf(item);
  return TEXTS.includes(name) || (view.record.what === "node record" && name === undefined);
}

function whatOf(item) {
  if (!view.isList(item)) return `string of ${counted(view.payload(item), "byte")}`;
  const isPart = view.fault && view.end(item) > view.fault.place;
  return isPart ? `list, ${counted(view.children[item], "item")} read` : `list of ${counted(view.children[item], "item")}`;
}

/** The style of a byte, but for what is chosen. */
function styleOf(byte, item) {
  const kind = byte < view.start ? " type" : view.marks.has(byte) ? " wrong" : item === NOTHING ? " rest" : "";
  return `b${kind}${item === NOTHING ? "" : ` c${item % 8} ${view.isHead(item, byte) ? "h" : "p"}`}`;
}

// A byte that isn't chosen, of which the others are copies.
const CELL_OF_BYTE = element("span", "b", "00");
CELL_OF_BYTE.setAttribute("role", "option");
CELL_OF_BYTE.setAttribute("aria-selected", "false");

function cellOf(byte, from, to) {
  const item = view.itemAt(byte);
  const cell = CELL_OF_BYTE.cloneNode(true);
  cell.className = `${styleOf(byte, item)}${byte >= from && byte < to ? " on" : ""}${byte === cursor ? " cursor" : ""}`;
  cell.firstChild.data = PAIRS[view.bytes[byte]];
  cell.id = `b${byte}`;
  cell.setAttribute("data-byte", byte);
  cell.setAttribute("data-item", item);
  if (byte === cursor) cell.setAttribute("aria-selected", "true");
  return cell;
}

function lineOfBytes(line) {
  const row = element("div", "line");
  row.setAttribute("role", "presentation");
  const from = line * perLine;
  const to = Math.min(from + perLine, view.bytes.length);
  const at = element("span", "at", from.toString(16).padStart(5, "0"));
  at.setAttribute("aria-hidden", "true");
  row.append(at);
  const [first, last] = chosen();
  for (let byte = from; byte < to; byte++) row.append(cellOf(byte, first, last));
  if (hasText) {
    const shown = Array.from(view.bytes.subarray(from, to), (byte) => (byte >= 0x20 && byte < 0x7f ? String.fromCharCode(byte) : "·"));
    const text = element("span", "at", shown.join(""));
    if (to - from < perLine) text.style.marginLeft = `${(perLine - (to - from)) * CELL}px`;
    text.setAttribute("aria-hidden", "true");
    row.append(text);
  }
  return row;
}

/** A byte in words. */
function describe(byte) {
  const item = view.itemAt(byte);
  const value = `Byte ${numbered(byte)}, 0x${view.bytes[byte].toString(16).padStart(2, "0")}`;
  const fault = view.marks.get(byte);
  if (byte < view.start) return `${value}: the type of the transaction`;
  if (item === NOTHING) return `${value}: ${fault ?? "not read"}`;
  return `${value}: ${view.isHead(item, byte) ? "header" : "payload"} of a ${aboutItem(item)}${fault ? `. ${fault}` : ""}`;
}

function aboutItem(item) {
  const name = nameOf(item);
  return `${whatOf(item)}${name ? `, ${name},` : ""} at ${numbered(view.offset(item))}, header ${view.head(item)}, payload ${numbered(view.payload(item))}`;
}

function nodeOf(line) {
  if (line === view.shown.length) return lastNode();
  const item = view.shown[line];
  const isOn = active !== NOTHING && line === view.lineOf(active);
  const node = element("div", `node c${item % 8}${isOn ? " on" : ""}`);
  const depth = view.depth(item);
  const isList = view.isList(item);
  node.id = `n${item}`;
  node.setAttribute("data-item", item);
  node.setAttribute("role", "treeitem");
  node.setAttribute("aria-selected", isOn);
  node.setAttribute("aria-level", depth + 1);
  node.setAttribute("aria-posinset", view.ranks[item] || 1);
  node.setAttribute("aria-setsize", depth > 0 ? view.children[view.parents[item]] : 1);
  if (isList) node.setAttribute("aria-expanded", !view.closed.has(item));
  node.style.paddingLeft = `${4 + Math.min(depth, 16) * 14}px`;
  node.append(element("span", "twist", !isList || view.children[item] === 0 ? "" : view.closed.has(item) ? "▸" : "▾"), element("span", "swatch"));
  const name = nameOf(item);
  if (name) node.append(element("span", "what", name));
  node.append(element("span", name ? "what kind" : "what", `${name ? ": " : ""}${depth > 16 ? `${depth} deep: ` : ""}${whatOf(item)}`));
  node.append(element("span", "where", `at ${view.offset(item)}, ${view.head(item)} + ${view.payload(item)}`));
  if (!isList && view.payload(item) > 0) {
    const from = view.offset(item) + view.head(item);
    const bytes = view.bytes.subarray(from, from + Math.min(view.payload(item), 48));
    node.append(element("span", "value", isText(item) && printable(bytes) ? `“${letters(bytes)}”` : toHex(bytes)));
  }
  return node;
}

/** The line behind the items: the fault, or that there are more items. */
function lastNode() {
  const node = element("div", "node broken");
  const text = view.fault ? `${view.fault.name} at byte ${numbered(view.fault.place)}` : `${counted(view.count - MOST_NODES, "item")} more, not shown`;
  node.dataset.item = NOTHING;
  if (view.fault) node.dataset.byte = view.fault.mark;
  node.setAttribute("role", "treeitem");
  node.setAttribute("aria-level", 1);
  node.append(element("span", "twist", "!"), element("span", "what", text));
  return node;
}

const dump = new Lines(the("dump"), LINE, lineOfBytes);
const tree = new Lines(the("tree"), NODE, nodeOf);

/** From where to where the bytes of the active item are. */
const chosen = () => (active === NOTHING ? [0, 0] : [view.offset(active), view.end(active)]);

function mark(node, name, isOn) {
  node.classList.toggle(name, isOn);
  if (node.getAttribute("aria-selected") !== String(isOn)) node.setAttribute("aria-selected", isOn);
}

/** Marks the item that is active and the byte that is chosen, where they are in the document. */
function paint() {
  if (!view) return;
  const [from, to] = chosen();
  for (const cell of dump.window.getElementsByClassName("b")) {
    const byte = Number(cell.dataset.byte);
    cell.classList.toggle("on", byte >= from && byte < to);
    mark(cell, "cursor", byte === cursor);
  }
  const line = active === NOTHING ? NOTHING : view.shown[view.lineOf(active)];
  for (const node of tree.window.children) mark(node, "on", Number(node.dataset.item) === line && line !== NOTHING);
  for (const row of the("record").tBodies[0].rows) {
    const first = Number(row.dataset.item);
    row.classList.toggle("on", active >= first && view.end(active) <= view.end(first) && active !== NOTHING);
  }
  point();
}

/** Says where the keyboard is, where that is in the document. */
function point() {
  const cell = document.getElementById(`b${cursor}`);
  const node = active === NOTHING ? null : document.getElementById(`n${view.shown[view.lineOf(active)]}`);
  cell?.setAttribute("aria-label", describe(cursor));
  for (const [box, found] of [[dump.box, cell], [tree.box, node]]) {
    found ? box.setAttribute("aria-activedescendant", found.id) : box.removeAttribute("aria-activedescendant");
  }
}

/** Chooses a byte and its item, and shows both, but moves nothing where the choice came from. */
function choose(item, byte, from) {
  active = item;
  cursor = byte;
  the("place").textContent = byte < view.bytes.length ? (from === "tree" && item !== NOTHING ? `${aboutItem(item)}.` : `${describe(byte)}.`) : "\u00a0";
  if (from !== "dump") dump.reveal(Math.floor(byte / perLine));
  if (from !== "tree" && item !== NOTHING) tree.reveal(view.lineOf(item));
  paint();
}

const chooseItem = (item, from) => choose(item, view.offset(item), from);

function move(byte) {
  const to = Math.max(0, Math.min(view.bytes.length - 1, byte));
  choose(view.itemAt(to), to, "dump");
  dump.reveal(Math.floor(to / perLine));
}

function toggle(item, close) {
  if (close) view.closed.add(item);
  else view.closed.delete(item);
  view.list();
  tree.set(linesOfTree());
  chooseItem(item, "tree");
  tree.reveal(view.lineOf(item));
}

const linesOfTree = () => view.shown.length + (view.fault || view.count > MOST_NODES ? 1 : 0);

the("dump").addEventListener("keydown", (event) => {
  const page = perLine * Math.max(1, Math.floor(the("dump").clientHeight / LINE) - 1);
  const steps = { ArrowLeft: -1, ArrowRight: 1, ArrowUp: -perLine, ArrowDown: perLine, PageUp: -page, PageDown: page, Home: -Infinity, End: Infinity };
  if (!(event.key in steps) || !view || event.ctrlKey || event.altKey || event.metaKey) return;
  event.preventDefault();
  move(cursor + steps[event.key]);
});

the("tree").addEventListener("keydown", (event) => {
  if (!view || view.count === 0 || event.ctrlKey || event.altKey || event.metaKey) return;
  const line = active === NOTHING ? 0 : view.lineOf(active);
  const item = view.shown[line];
  const page = Math.max(1, Math.floor(the("tree").clientHeight / NODE) - 1);
  const steps = { ArrowUp: -1, ArrowDown: 1, PageUp: -page, PageDown: page, Home: -Infinity, End: Infinity };
  const { key } = event;
  const holds = view.isList(item) && view.children[item] > 0;
  if (!(key in steps) && key !== "ArrowLeft" && key !== "ArrowRight") return;
  event.preventDefault();
  if (key === "ArrowLeft" && holds && !view.closed.has(item)) return toggle(item, true);
  if (key === "ArrowRight" && holds && view.closed.has(item)) return toggle(item, false);
  let to = line;
  if (key in steps) to = Math.max(0, Math.min(view.shown.length - 1, line + steps[key]));
  else if (key === "ArrowRight" && holds) to = line + 1;
  else if (key === "ArrowLeft" && view.parents[item] !== NOTHING) to = view.lineOf(view.parents[item]);
  chooseItem(view.shown[to], "tree");
  tree.reveal(to);
});

for (const box of [the("dump"), the("tree")]) {
  box.addEventListener("focus", () => {
    if (!view || active !== NOTHING || view.count === 0) return;
    chooseItem(0, box.id);
  });
  // Not mouseover, which also comes when something is scrolled under a mouse that rests.
  for (const kind of ["mousemove", "click"]) {
    box.addEventListener(kind, (event) => {
      const found = event.target.closest("[data-item]");
      if (!found || !view) return;
      const item = Number(found.dataset.item);
      const byte = "byte" in found.dataset ? Number(found.dataset.byte) : view.offset(item);
      const isTwist = kind === "click" && event.target.classList.contains("twist") && item !== NOTHING;
      if (isTwist && view.isList(item) && view.children[item] > 0) return toggle(item, !view.closed.has(item));
      if (item !== active || byte !== cursor) choose(item, byte, box.id);
    });
  }
}
