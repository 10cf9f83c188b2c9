// What is read of some bytes.

// How many items a step looks at.
const ITEMS = 1 << 13;

/** The items of some bytes, the first fault, and the fields where they are a record. */
class View {
  constructor(bytes) {
    this.bytes = bytes;
    this.fault = null;
    this.record = null;
    this.recordFault = null;
    this.hints = [];
    this.marks = new Map();
    this.closed = new Set();
    this.start = 0;
  }

  /** Reads bytes, step by step. */
  static *of(bytes, kind) {
    const made = new View(bytes);
    yield* made.#readRecord(kind);
    yield;
    const rows = yield* made.#rows();
    yield;
    yield* made.#read(rows);
    yield;
    made.list();
    return made;
  }

  /** The rows of the items up to the first fault, which is kept. */
  *#rows() {
    const part = this.bytes.subarray(this.start);
    const found = yield* codec.inspectInSteps(part);
    if (!found.fault) return found.rows;
    const { fault } = found;
    const place = fault.place + this.start;
    this.fault = { name: fault.name, why: new RlpError(fault.status, { place }).message, place, mark: place };
    if (fault.status !== TOO_BIG || fault.place > 0) return found.rows;
    // The item is shown, and the bytes behind it are marked.
    const { headerLength, payloadLength } = codec.header(part);
    this.fault.mark = this.start + headerLength + payloadLength;
    return (yield* codec.inspectInSteps(part.subarray(0, headerLength + payloadLength))).rows;
  }

  /** What the page asks of each item, by its row. */
  *#read({ words, length }) {
    this.words = words;
    this.count = length;
    this.parents = new Int32Array(length);
    this.children = new Uint32Array(length);
    this.ranks = new Uint32Array(length);
    this.deepest = 0;
    const open = [];
    for (let item = 0; item < length; item++) {
      if (item % ITEMS === 0) yield;
      const depth = words[item * 8 + 6];
      open[depth] = item;
      this.parents[item] = depth > 0 ? open[depth - 1] : NOTHING;
      if (depth > 0) this.ranks[item] = ++this.children[open[depth - 1]];
      if (depth > this.deepest) this.deepest = depth;
    }
    this.names = this.record?.names ?? new Map();
    for (const { offset, name } of this.record?.items ?? []) this.names.set(offset, name);
    const fits = { transaction: [9], header: [15, 16, 17, 20, 21, 22, 23] };
    this.hints = this.hints.filter(({ what }) => !this.fault && fits[what].includes(this.children[0]));
    if (this.recordFault?.error.place !== undefined) this.marks.set(this.recordFault.error.place, toldOf(this.recordFault.error));
    if (this.fault) this.marks.set(this.fault.mark, `${this.fault.name}: ${this.fault.why}`);
  }

  /** Keeps the record that a call gives, or its fault. Answers whether there is one. */
  #attempt(what, call) {
    try {
      this.record = { what, ...call() };
    } catch (error) {
      if (!(error instanceof RlpError)) throw error;
      this.recordFault = { what, error };
    }
    return this.record !== null;
  }

  *#readRecord(kind) {
    const { bytes } = this;
    const isTyped = bytes.length > 1 && bytes[0] < 0x80 && bytes[1] >= 0xc0;
    if (kind === "transaction") this.#attempt(kind, () => transactionOf(bytes));
    if (kind === "header") this.#attempt(kind, () => codec.headerFields(bytes));
    if (kind === "node record") {
      this.record = nodeRecordOf(bytes);
      this.recordFault = { what: kind, error: new TypeError("it has a signature of 64 bytes, a number, and keys in order with their values") };
    }
    if (kind === "guess" && bytes.length > 0) yield* this.#guess(isTyped);
    if (this.record) this.recordFault = null;
    if (isTyped && ["transaction", "receipt"].includes(this.record?.what ?? this.recordFault?.what)) this.start = 1;
  }

  /** Tries one record after the other. */
  *#guess(isTyped) {
    const { bytes } = this;
    if (this.#attempt("transaction", () => transactionOf(bytes))) return;
    yield;
    const ofTransaction = this.recordFault;
    const known = isTyped && ofTransaction.error.status !== UNKNOWN_TYPE;
    const isHeader = !known && this.#attempt("header", () => codec.headerFields(bytes));
    yield;
    if (!isHeader) this.record = (known ? null : nodeRecordOf(bytes) ?? (yield* blockOf(bytes))) ?? (yield* receiptOf(bytes));
    // A list with the right number of fields may be meant as a record.
    const isMeant = ({ error }) => error.field > 0 && error.status !== MISSING_FIELD;
    this.hints = this.record || known ? [] : [ofTransaction, this.recordFault].filter(isMeant);
    if (!known) this.recordFault = null;
  }

  offset(item) {
    return this.words[item * 8] + this.start;
  }

  head(item) {
    return this.words[item * 8 + 2];
  }

  payload(item) {
    return this.words[item * 8 + 4];
  }

  depth(item) {
    return this.words[item * 8 + 6];
  }

  isList(item) {
    return this.words[item * 8 + 7] !== 0;
  }

  end(item) {
    return this.offset(item) + this.head(item) + this.payload(item);
  }

  /** The item that a byte belongs to, of its header or of a string. */
  itemAt(byte) {
    let [low, high] = [0, this.count];
    while (low < high) {
      const middle = (low + high) >>> 1;
      if (this.offset(middle) <= byte) low = middle + 1;
      else high = middle;
    }
    const item = low - 1;
    if (item < 0) return NOTHING;
    const end = this.isList(item) ? this.offset(item) + this.head(item) : this.end(item);
    return byte < end ? item : NOTHING;
  }

  isHead(item, byte) {
    return byte < this.offset(item) + this.head(item);
  }

  /** Lists the items that no closed list hides. */
  list() {
    const shown = new Uint32Array(Math.min(this.count, MOST_NODES));
    let length = 0;
    let hidden = Infinity;
    for (let item = 0; item < this.count && length < shown.length; item++) {
      const depth = this.depth(item);
      if (depth > hidden) continue;
      hidden = this.closed.has(item) ? depth : Infinity;
      shown[length++] = item;
    }
    this.shown = shown.subarray(0, length);
  }

  /** The line of an item in the tree, or of the closed list that hides it, which is the last line before it. */
  lineOf(item) {
    let [low, high] = [0, this.shown.length];
    while (low < high) {
      const middle = (low + high) >>> 1;
      if (this.shown[middle] <= item) low = middle + 1;
      else high = middle;
    }
    return low - 1;
  }
}
