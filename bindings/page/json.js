// The item as JSON, and bytes from a JSON.

// More than so many items or bytes take a box too long to show, so their JSON is saved.
const MOST_JSON_ITEMS = 400;
const MOST_JSON_BYTES = 1 << 13;

/** The digits of bytes, step by step. */
function* hexOf(bytes) {
  let text = "0x";
  for (let from = 0; from < bytes.length; from += ITEMS) {
    text += toHex(bytes.subarray(from, from + ITEMS)).slice(2);
    yield;
  }
  return text;
}

/** The JSON of the item, step by step, as JSON.stringify writes it with one space for each list around. */
function* jsonOf({ bytes, count, children, ranks }) {
  const parts = [];
  // How many lists are open.
  let open = 0;
  const close = (depth) => {
    for (; open > depth; open--) parts.push(`\n${" ".repeat(open - 1)}]`);
  };
  for (let item = 0; item < count; item++) {
    if (item % (ITEMS / 8) === 0) yield;
    const depth = view.depth(item);
    close(depth);
    if (depth > 0) parts.push(`${ranks[item] > 1 ? "," : ""}\n${" ".repeat(depth)}`);
    if (view.isList(item)) {
      parts.push(children[item] > 0 ? "[" : "[]");
      if (children[item] > 0) open = depth + 1;
      continue;
    }
    const string = bytes.subarray(view.offset(item) + view.head(item), view.end(item));
    parts.push('"', string.length > ITEMS ? yield* hexOf(string) : toHex(string), '"');
  }
  close(0);
  return parts.join("");
}

/** Shows the JSON in its box, unless the bytes are from there, or that it can be saved. */
function* showJson(isFromJson) {
  const isLarge = view.count > MOST_JSON_ITEMS || view.bytes.length > MOST_JSON_BYTES;
  const kept = view.start ? " The type byte in front is kept." : "";
  const note = isLarge ? "The JSON of these bytes is too long for the box." : "Nested arrays of hexadecimal strings.";
  const text = isFromJson ? the("json").value : isLarge || view.fault ? "" : yield* jsonOf(view);
  the("json-fault").textContent = "";
  the("json-note").textContent = view.fault
    ? "Only canonical bytes have a JSON here. What is written in the box becomes the bytes above."
    : `${note} A change in the box is written as bytes above.${kept}`;
  if (the("json").value !== text) the("json").value = text;
  the("json-save").hidden = !isLarge || view.fault !== null;
}

/** Saves the JSON as a file. */
async function saveJson() {
  if (!view) return;
  const mine = ++turn;
  const text = await inTurns(jsonOf(view), () => turn === mine);
  if (text === null) return;
  const link = document.createElement("a");
  link.href = URL.createObjectURL(new Blob([text], { type: "application/json" }));
  link.download = "item.json";
  link.click();
  URL.revokeObjectURL(link.href);
}

/** The strings and lists of a JSON, of which each is below the places in a path, step by step. */
function* checked(value, path, count = { passed: 0 }) {
  if (++count.passed % (ITEMS / 8) === 0) yield;
  if (path.length > 256) throw new TypeError("There are more than 256 lists, one in the other.");
  if (Array.isArray(value)) {
    const items = [];
    for (let at = 0; at < value.length; at++) {
      path.push(at);
      items.push(yield* checked(value[at], path, count));
      path.pop();
    }
    return items;
  }
  if (typeof value === "string" && /^0x(?:[0-9a-f]{2})*$/i.test(value)) return `0x${value.slice(2)}`;
  const where = path.length ? `At [${path.join("][")}]` : "The whole";
  throw new TypeError(`${where} is neither an array nor a string of 0x and pairs of hexadecimal digits.`);
}

/** The bytes of a JSON, behind those in front of the item, step by step. */
function* bytesOfJson(text, front) {
  const value = JSON.parse(text);
  yield;
  const items = yield* checked(value, []);
  yield;
  const item = yield* codec.encodeInSteps(items);
  const bytes = new Uint8Array(front.length + item.length);
  bytes.set(front);
  bytes.set(item, front.length);
  return bytes;
}

/** Shows the bytes of a JSON. A fault of it is told, and what is shown stays. */
async function readJson(text) {
  the("json-fault").textContent = "";
  const mine = ++turn;
  try {
    const bytes = await inTurns(bytesOfJson(text, view ? view.bytes.slice(0, view.start) : new Uint8Array(0)), () => turn === mine);
    if (bytes === null) return;
    the("input").value = bytes.length * 2 > LARGE_TEXT ? "" : toHex(bytes);
    take(given(bytes, `Written from the JSON: ${counted(bytes.length, "byte")}.`), true);
  } catch (error) {
    if (!(error instanceof TypeError || error instanceof SyntaxError || error instanceof RlpError)) throw error;
    the("json-fault").textContent = error instanceof SyntaxError ? `This is no JSON: ${error.message}` : error.message;
  }
}

/** Pasted text that is too long for a box is read without being shown in it. */
function readWithoutBox(event, read) {
  const text = event.clipboardData?.getData("text/plain") ?? "";
  if (text.length <= LARGE_TEXT) return;
  event.preventDefault();
  event.target.value = "";
  read(text);
}
