// The fields and the verdict, and what is given.

// How many letters of a list are shown as the value of a field.
const MOST_LETTERS = 600;

/** The text of a value in a list. Of a long one it is the begin, which is long enough to be cut. */
function shortText(value) {
  if (value instanceof Tree && !value.isList) return shortText(value.bytes);
  if (value instanceof Uint8Array) return `"${toHex(value.subarray(0, MOST_LETTERS))}"`;
  if (typeof value === "bigint") return `"${value}"`;
  const isStruct = !(Array.isArray(value) || value instanceof Tree);
  const parts = [];
  let length = 0;
  for (const part of isStruct ? Object.entries(value) : value) {
    if (length > MOST_LETTERS) break;
    parts.push(isStruct ? `"${part[0]}": ${shortText(part[1])}` : shortText(part));
    length += parts.at(-1).length;
  }
  const [open, shut] = isStruct ? "{}" : "[]";
  return parts.length === 0 ? `${open}${shut}` : `${open} ${parts.join(", ")} ${shut}`;
}

function textOf(value) {
  if (value === null) return "none: it makes a contract";
  if (typeof value === "string") return value;
  if (value instanceof Uint8Array) return value.length === 0 ? "empty" : shortHex(value, 64);
  const text = shortText(value);
  return `${counted(value.length, "entry", "entries")}${value.length ? `: ${text.length > MOST_LETTERS ? `${text.slice(0, MOST_LETTERS)}…` : text}` : ""}`;
}

function showRecord() {
  const { record } = view;
  the("record-section").hidden = record === null;
  const rows = (record?.items ?? []).map(({ name, kind, offset, headerLength, payloadLength }) => {
    const row = element("tr");
    const button = element("button", "", name);
    const item = view.itemAt(offset);
    const value = record.fields[name];
    const shown = element("td");
    button.type = "button";
    row.dataset.item = item;
    if (kind === "number") shown.append(element("span", "", value.toString()), element("span", "hex", `0x${value.toString(16)}`));
    else shown.append(element("span", "", textOf(value)));
    if (name === "ip" && payloadLength === 4) shown.append(element("span", "hex", [...value].join(".")));
    if (TEXTS.includes(name) && printable(value)) shown.append(element("span", "hex", `“${letters(value.subarray(0, 200))}”`));
    const cell = element("td");
    cell.append(button);
    row.append(cell, shown, element("td", "", numbered(offset)), element("td", "", `${headerLength} + ${numbered(payloadLength)}`));
    for (const kindOf of ["mousemove", "focusin", "click"]) row.addEventListener(kindOf, () => active !== item && chooseItem(item, "record"));
    return row;
  });
  the("record").tBodies[0].replaceChildren(...rows);
  if (record) the("record-note").textContent = `${named(record)} Length is header + payload.${BY_SHAPE[record.what] ?? ""}`;
}

// What the library doesn't read by fields.
const BY_SHAPE = {
  "node record": " Its names are read by this page alone, and its signature isn't checked.",
  block: " That it is a block is found by this page alone, from its header and its lists.",
  receipt: " Its names are read by this page alone.",
};

/** What a record is. */
function named(record) {
  const { what, typeName, isUnsigned, chain } = record;
  if (what in BY_SHAPE) return `A ${what}, by its shape.`;
  if (what === "header") return `A block header, as since ${record.fork}.`;
  const forChain = chain === undefined ? "" : ` for chain ${chain}`;
  if (isUnsigned) return `An unsigned ${typeName} transaction${forChain}: these are the bytes that are signed.`;
  return `${typeName.startsWith("EIP") ? "An" : "A"} ${typeName} transaction.`;
}

const toldOf = (error) => (error instanceof RlpError ? `${error.name}: ${error.message}` : error.message);

function showVerdict() {
  const { fault, record, recordFault, count, bytes } = view;
  const parts = [];
  if (fault) parts.push(`Not canonical. ${fault.name}: ${fault.why}.`);
  else {
    parts.push(`Canonical: ${counted(bytes.length, "byte")}, a ${whatOf(0)}`);
    parts.push(count > 1 ? `, ${counted(count, "item")} in all, lists ${view.deepest} deep.` : ".");
  }
  if (fault && fault.mark !== fault.place) parts.push(` The item ends before byte ${numbered(fault.mark)}, which is marked.`);
  if (record) parts.push(` ${named(record)}`);
  for (const { what, error } of view.hints) parts.push(` As a ${what === "header" ? "block header" : what} it has a fault: ${error.name}: ${error.message}.`);
  if (recordFault) parts.push(` No ${recordFault.what === "header" ? "block header" : recordFault.what}: ${toldOf(recordFault.error)}.`);
  the("verdict").textContent = parts.join("");
  the("verdict").className = `verdict ${fault || recordFault ? "bad" : "good"}`;
}

/** Begins with another input. What is read of an earlier one isn't wanted any more. */
function begin() {
  the("input-note").textContent = "";
  the("link-note").textContent = "";
  active = NOTHING;
  cursor = 0;
  view = null;
  return ++turn;
}

/** Shows what steps give: bytes with a note, or a fault that is told. They are done in turns, unless another input comes. */
function take(steps, isFromJson = false) {
  const mine = begin();
  return inTurns(showing(steps, isFromJson), () => turn === mine);
}

function* given(bytes, note) {
  return { bytes, note };
}

function* showing(steps, isFromJson) {
  let input;
  try {
    input = yield* steps;
  } catch (error) {
    if (!(error instanceof TypeError)) throw error;
    return refuse(error.message);
  }
  const { bytes, note } = input;
  the("input-note").textContent = note;
  if (bytes.length > MOST_BYTES) return refuse(`There are ${counted(bytes.length, "byte")}. This page reads up to ${numbered(MOST_BYTES)}.`);
  yield;
  yield* showView(yield* View.of(bytes, the("kind").value), isFromJson);
}

/** Shows what was read, the verdict last. */
function* showView(made, isFromJson) {
  const wasHidden = the("panes").hidden;
  const rest = made.bytes.length > LARGE ? [FRAME] : [];
  view = made;
  the("link").disabled = false;
  the("panes").hidden = false;
  dump.go(0);
  tree.go(0);
  if (wasHidden) measure();
  dump.set(Math.ceil(view.bytes.length / perLine));
  tree.set(linesOfTree());
  const [marked] = view.marks.keys();
  if (marked !== undefined && marked < view.bytes.length) choose(view.itemAt(marked), marked, "input");
  else the("place").textContent = "\u00a0";
  yield* dump.draw();
  yield* rest;
  yield* tree.draw();
  point();
  yield* rest;
  showRecord();
  yield* rest;
  yield* showJson(isFromJson);
  showVerdict();
}

function refuse(text) {
  turn++;
  view = null;
  the("link").disabled = true;
  the("link-note").textContent = "";
  the("verdict").textContent = text;
  the("verdict").className = "verdict bad";
  the("panes").hidden = true;
  the("record-section").hidden = true;
  the("place").textContent = "\u00a0";
}

/** Learns how many bytes a line has room for. */
function measure() {
  const room = the("dump").clientWidth - 66;
  perLine = room >= 16 * CELL ? 16 : 8;
  hasText = room >= perLine * CELL + perLine * 8 + 18;
  dump.measure();
  tree.measure();
}

/** Draws the dump and the tree again, for another width of the page. */
function fit() {
  if (the("panes").hidden) return;
  measure();
  if (!view) return;
  dump.set(Math.ceil(view.bytes.length / perLine));
  dump.reveal(Math.floor(cursor / perLine));
  tree.show();
}

// ---- What is given ----

/** The bytes of the text of a node record: base64 for addresses of the web, without the equals signs. */
function bytesOfNodeText(text) {
  const base64 = text.trim().slice(4);
  const wrong = /[^A-Za-z0-9_-]/.exec(base64);
  if (wrong || base64.length % 4 === 1) throw new TypeError("The text behind “enr:” isn't base64 for addresses of the web.");
  return fromBase64(base64.replaceAll("-", "+").replaceAll("_", "/"));
}

/** The value of a hexadecimal digit by its character code, or -1. */
function digitOf(code) {
  if (code >= 48 && code <= 57) return code - 48;
  const lower = code | 32;
  return lower >= 97 && lower <= 102 ? lower - 87 : -1;
}

function wrongDigit(count, letter) {
  const shown = printable([letter.codePointAt(0)]) ? `“${letter}”` : `U+${letter.codePointAt(0).toString(16).toUpperCase().padStart(4, "0")}`;
  return new TypeError(`There is no hexadecimal digit at digit ${numbered(count + 1)}, but ${shown}.`);
}

/** How many characters are in front of the digits. */
const frontOf = (text) => /^\s*(?:0x)?/i.exec(text)[0].length;

/** The bytes of digits by their character codes, between which there may be spaces, step by step. They end at another character, if one is there. */
function* bytesOfDigits(length, codeAt, from) {
  const bytes = new Uint8Array(Math.ceil(length / 2));
  let count = 0;
  let at = from;
  for (; at < length; at++) {
    if (at % ITEMS === 0) yield;
    const code = codeAt(at);
    const digit = digitOf(code);
    if (digit >= 0) {
      bytes[count >> 1] = bytes[count >> 1] * 16 + digit;
      count++;
    } else if (!/\s/.test(String.fromCharCode(code))) break;
  }
  return { bytes: bytes.subarray(0, count >> 1), count, at };
}

/** The bytes of text: digits, or a node record. */
function* bytesOfText(text) {
  if (/^\s*enr:/.test(text)) return bytesOfNodeText(text);
  const { bytes, count, at } = yield* bytesOfDigits(text.length, (place) => text.charCodeAt(place), frontOf(text));
  if (at < text.length) throw wrongDigit(count, String.fromCodePoint(text.codePointAt(at)));
  if (count % 2) throw oddDigits(count);
  return bytes;
}

const oddDigits = (count) => new TypeError(`There are ${numbered(count)} digits: the last byte has only one.`);

/** Shows the bytes of the address, behind its #. */
function readLink() {
  let text = location.hash.slice(1);
  try {
    text = decodeURIComponent(text);
  } catch (error) {
    // A sign of percent that begins no character is left as it is.
    if (!(error instanceof URIError)) throw error;
  }
  if (!text) return;
  the("input").value = text.length > LARGE_TEXT ? "" : text;
  readText(text);
}

/** Puts the bytes into the address behind a #, which no browser sends, and copies the address where that is allowed. */
async function link() {
  if (!view) return;
  const { length } = view.bytes;
  if (length > MOST_OF_LINK) {
    the("link-note").textContent = `There are ${counted(length, "byte")}. A link carries up to ${numbered(MOST_OF_LINK)}.`;
    return;
  }
  history.replaceState(null, "", `#${toHex(view.bytes)}`);
  const copied = await navigator.clipboard?.writeText(location.href).then(() => true, () => false);
  the("link-note").textContent = copied ? "The link is copied. It carries the bytes behind its #, which is sent to nobody." : "The address of this page now carries the bytes behind its #, which is sent to nobody.";
}

function readText(text) {
  the("example").value = "";
  if (text.trim() === "") {
    begin();
    refuse("Paste bytes, or choose an example.");
    the("verdict").className = "verdict";
    return;
  }
  const isLarge = text.length > LARGE_TEXT;
  if (isLarge) the("input").value = "";
  take(fromText(text, isLarge));
}

function* fromText(text, isLarge) {
  const bytes = yield* bytesOfText(text);
  return { bytes, note: isLarge ? `${counted(bytes.length, "byte")} were pasted, which is too many to be edited in the box. The box is empty for other input.` : "" };
}

async function readFile(file) {
  if (file.size > MOST_BYTES * 2) return refuse(`The file has ${counted(file.size, "byte")}. This page reads up to ${numbered(MOST_BYTES)}.`);
  const bytes = new Uint8Array(await file.arrayBuffer());
  the("input").value = "";
  take(fromFile(file.name, bytes));
}

/** A file of digits is read as digits. */
function* fromFile(name, bytes) {
  const from = frontOf(String.fromCharCode(...bytes.subarray(0, 99)));
  const digits = yield* bytesOfDigits(bytes.length, (place) => bytes[place], from);
  const isText = bytes.length > 1 && digits.count > 0 && digits.at === bytes.length;
  if (isText && digits.count % 2) throw oddDigits(digits.count);
  const shown = isText ? digits.bytes : bytes;
  return { bytes: shown, note: `The file “${name}”, read as ${isText ? "hexadecimal digits" : "bytes"}: ${counted(shown.length, "byte")}.` };
}

function soon(call) {
  clearTimeout(waiting);
  waiting = setTimeout(call, 150);
}

function listen() {
  the("input").addEventListener("input", () => soon(() => readText(the("input").value)));
  the("input").addEventListener("paste", (event) => readWithoutBox(event, readText));
  the("json").addEventListener("input", () => soon(() => readJson(the("json").value)));
  the("json").addEventListener("paste", (event) => readWithoutBox(event, readJson));
  the("json-save").addEventListener("click", saveJson);
  the("kind").addEventListener("change", () => view && take(given(view.bytes, the("input-note").textContent)));
  the("clear").addEventListener("click", () => {
    the("input").value = the("json").value = "";
    readText("");
    the("input").focus();
  });
  the("link").addEventListener("click", link);
  window.addEventListener("hashchange", readLink);
  the("file").addEventListener("change", () => the("file").files[0] && readFile(the("file").files[0]));
  the("example").append(...Object.keys(EXAMPLES).map((name) => new Option(name, name)));
  the("example").addEventListener("change", () => {
    const name = the("example").value;
    if (!name) return;
    the("input").value = EXAMPLES[name];
    readText(EXAMPLES[name]);
    the("example").value = name;
  });
  document.addEventListener("dragover", (event) => {
    if (!event.dataTransfer.types.includes("Files")) return;
    event.preventDefault();
    document.body.classList.add("drop");
  });
  for (const kind of ["drop", "dragleave"]) document.addEventListener(kind, () => document.body.classList.remove("drop"));
  document.addEventListener("drop", (event) => {
    if (!event.dataTransfer.files.length) return;
    event.preventDefault();
    readFile(event.dataTransfer.files[0]);
  });
  let width = window.innerWidth;
  window.addEventListener("resize", () => {
    if (window.innerWidth !== width) fit();
    width = window.innerWidth;
  });
}

try {
  codec = await load(fromBase64(MODULE));
  listen();
  if (location.hash.length > 1) readLink();
  else readText(the("input").value);
} catch (error) {
  refuse(error.message);
}
