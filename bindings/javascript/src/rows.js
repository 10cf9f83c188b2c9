/** The rows that the library makes of items, and the memory that they lie in. */

// Where the words of 4 bytes of an item are in its row of 8.
export const ROW = 32;
export const HEADER_LEN = 2;
export const PAYLOAD_LEN = 4;
export const DEPTH = 6;
export const IS_LIST = 7;

export const wordsAt = (words, at) => words[at] + words[at + 1] * 0x1_0000_0000;

/** The items of an encoding, each before those in it, in the memory of the library. */
export class Rows {
  #arena;
  #call;
  #words;
  #bytes;

  constructor(arena, words, bytes) {
    this.#arena = arena;
    this.#call = arena?.calls;
    this.#words = words;
    this.#bytes = bytes;
    this.length = words.length / 8;
  }

  /** Whether no call has come since, so that the rows are still there. */
  get isCurrent() {
    return this.#arena === null || this.#arena.calls === this.#call;
  }

  /** Eight words of 32 bits for each item: offset, header and payload with two each, depth, and 1 for a list. */
  get words() {
    if (!this.isCurrent) throw new Error("another call has taken the memory of these rows: call copy() before it");
    return this.#words;
  }

  /** The bytes that were read. */
  get bytes() {
    void this.words;
    return this.#bytes;
  }

  offset(row) {
    return wordsAt(this.words, row * 8);
  }

  headerLength(row) {
    return wordsAt(this.words, row * 8 + HEADER_LEN);
  }

  payloadLength(row) {
    return wordsAt(this.words, row * 8 + PAYLOAD_LEN);
  }

  depth(row) {
    return this.words[row * 8 + DEPTH];
  }

  isList(row) {
    return this.words[row * 8 + IS_LIST] !== 0;
  }

  item(row) {
    if (!(row >= 0 && row < this.length)) throw new RangeError(`there is no row ${row}`);
    return itemAt(this.words, row * 8);
  }

  *[Symbol.iterator]() {
    for (let row = 0; row < this.length; row++) yield this.item(row);
  }

  /** The same rows in memory of their own, which stay as they are. */
  copy() {
    return new Rows(null, this.words.slice(), this.#bytes.slice());
  }
}

export function itemAt(words, at) {
  return {
    offset: wordsAt(words, at),
    headerLength: wordsAt(words, at + HEADER_LEN),
    payloadLength: wordsAt(words, at + PAYLOAD_LEN),
    depth: words[at + DEPTH],
    isList: words[at + IS_LIST] !== 0,
  };
}

/** An item of an encoding, with the items in it, which are made when they are asked for. */
export class Tree {
  #words;
  #buffer;
  #at;
  #places;

  /** The words are the rows of all items, and the buffer begins with the bytes. */
  constructor(words, buffer, at) {
    this.#words = words;
    this.#buffer = buffer;
    this.#at = at;
  }

  get offset() {
    return wordsAt(this.#words, this.#at);
  }

  get headerLength() {
    return this.#words[this.#at + HEADER_LEN];
  }

  get payloadLength() {
    return wordsAt(this.#words, this.#at + PAYLOAD_LEN);
  }

  get depth() {
    return this.#words[this.#at + DEPTH];
  }

  get isList() {
    return this.#words[this.#at + IS_LIST] !== 0;
  }

  /** The payload: the bytes of a string, or the encodings of a list's items. */
  get bytes() {
    return new Uint8Array(this.#buffer, this.offset + this.headerLength, this.payloadLength);
  }

  /** Where the rows of a list's items are. */
  #items() {
    if (this.#places) return this.#places;
    const words = this.#words;
    const depth = words[this.#at + DEPTH];
    this.#places = [];
    for (let at = this.#at + 8; at < words.length && words[at + DEPTH] > depth; at += 8) {
      if (words[at + DEPTH] === depth + 1) this.#places.push(at);
    }
    return this.#places;
  }

  /** The number of a list's items. A string has none. */
  get length() {
    return this.#items().length;
  }

  /** An item of a list by its place, which counts from the end if it is negative. */
  at(index) {
    const at = this.#items().at(index);
    return at === undefined ? undefined : new Tree(this.#words, this.#buffer, at);
  }

  *[Symbol.iterator]() {
    for (const at of this.#items()) yield new Tree(this.#words, this.#buffer, at);
  }

  /** The value, as `decode` gives it. */
  value() {
    return this.isList ? Array.from(this, (item) => item.value()) : this.bytes;
  }
}

/** The memory of the library behind what it needs itself. Each call takes it from its begin, so nothing has to be freed. */
export class Arena {
  constructor({ memory, __heap_base: base }) {
    this.memory = memory;
    // One row for results, which comes first.
    this.result = Math.ceil(Number(base.value) / 64) * 64;
    this.start = this.result + 64;
    this.calls = 0;
    this.#look();
  }

  #look() {
    const { buffer } = this.memory;
    this.buffer = buffer;
    this.size = buffer.byteLength;
    this.bytes = new Uint8Array(buffer);
    this.words = new Uint32Array(buffer, 0, Math.floor(this.size / 4));
  }

  /** Makes memory up to an end. It grows by half at least, so that growing is rare. */
  reach(end) {
    if (end <= this.size) return;
    const pages = (bytes) => Math.ceil((bytes - this.size) / 65536);
    if (!this.#grow(pages(Math.max(end, this.size * 1.5))) && !this.#grow(pages(end))) {
      throw new RangeError(`there is no memory for ${end} bytes`);
    }
    this.#look();
  }

  #grow(pages) {
    for (const count of [BigInt(pages), pages]) {
      try {
        this.memory.grow(count);
        return true;
      } catch (error) {
        // An engine takes a BigInt, or a number as Node 20 does, and has a TypeError for the other.
        if (!(error instanceof TypeError)) return false;
      }
    }
    return false;
  }

  get count() {
    return wordsAt(this.words, this.result / 4);
  }

  /** Begins a call over bytes, of which those that it reads are copied to the start. Answers the place behind all for rows. */
  begin(bytes, read = bytes.length) {
    this.calls++;
    const rows = Math.ceil((this.start + bytes.length) / ROW) * ROW;
    this.reach(rows + 64 * ROW);
    this.bytes.set(read < bytes.length ? bytes.subarray(0, read) : bytes, this.start);
    return rows;
  }
}

/** Rows that are added one by one. */
export class WordsOfRows {
  words = new Uint32Array(1024);
  used = 0;

  add(offset, headerLength, payloadLength, depth, isList) {
    if (this.used === this.words.length) {
      const wider = new Uint32Array(this.used * 2);
      wider.set(this.words);
      this.words = wider;
    }
    const { words, used } = this;
    words[used] = offset;
    words[used + 1] = offset / 0x1_0000_0000;
    words[used + HEADER_LEN] = headerLength;
    words[used + PAYLOAD_LEN] = payloadLength;
    words[used + PAYLOAD_LEN + 1] = payloadLength / 0x1_0000_0000;
    words[used + DEPTH] = depth;
    words[used + IS_LIST] = isList;
    this.used += 8;
  }
}
