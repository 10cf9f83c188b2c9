/** Ethereum's RLP format over a proved library that is compiled to WebAssembly. See `codec.d.ts` for what is exported. */

import { RlpError } from "./faults.js";
import { AUTHORIZATION, FORKS, HEADER, TRANSACTION_NAMES, TRANSACTIONS } from "./records.js";
import { Arena, DEPTH, HEADER_LEN, IS_LIST, itemAt, PAYLOAD_LEN, ROW, Rows, Tree, WordsOfRows, wordsAt } from "./rows.js";
import { bytesOf, numberOf, stringOf } from "./values.js";

export { RlpError } from "./faults.js";
export { Rows, Tree } from "./rows.js";
export { fromBase64, fromHex, toHex } from "./values.js";

const OK = 0;
const NO_ROOM = 13;
const TOO_DEEP = 14;
export const DEPTH_LIMIT = 256;
// A header has at most so many bytes. What the library answers of a header depends on no others, but for how many there are.
const MOST_OF_HEADER = 9;
// How many items a walk looks at before others have a turn.
const STEP = 1 << 12;

function depthOf(depth) {
  if (!Number.isInteger(depth) || depth < 0) throw new RangeError("maxDepth isn't a whole number from 0");
  return Math.min(depth, DEPTH_LIMIT);
}

/** Whether bytes begin as a string of more than 55 bytes does, which is canonical if its header is. */
const isLongString = (bytes) => bytes[0] > 0xb7 && bytes[0] < 0xc0;

/** What an iterator returns in the end. */
function finished(steps) {
  for (;;) {
    const { done, value } = steps.next();
    if (done) return value;
  }
}

/** The functions of the library over an instance of its module. */
export class Codec {
  #arena;
  #calls;

  constructor(instance) {
    this.#calls = instance.exports;
    this.#arena = new Arena(instance.exports);
  }

  /** How many bytes of memory the library has. */
  get memorySize() {
    return this.#arena.size;
  }

  /** Bytes outside the arena, which a call may take or, when it grows, leave without memory. */
  #outside(bytes) {
    return bytes.buffer === this.#arena.buffer ? bytes.slice() : bytes;
  }

  /** Where the item ends that the bytes in the arena begin with. */
  #firstEnd(length) {
    const { start, result, words } = this.#arena;
    const status = this.#calls.rlp_header(BigInt(start), BigInt(length), BigInt(result));
    if (status !== OK) throw new RlpError(status, { place: 0 });
    return wordsAt(words, result / 4 + HEADER_LEN) + wordsAt(words, result / 4 + PAYLOAD_LEN);
  }

  /** Calls a function that fills rows behind the bytes, with all the room that there is. */
  #ask(call, length, rows) {
    const { start, size, result } = this.#arena;
    return call(BigInt(start), BigInt(length), BigInt(rows), BigInt(Math.floor((size - rows) / ROW)), BigInt(result));
  }

  /** The same, and once more with the room that it needs. */
  #fill(bytes, call, isFirst = false) {
    const arena = this.#arena;
    const rows = arena.begin(bytes);
    const length = isFirst ? this.#firstEnd(bytes.length) : bytes.length;
    let status = this.#ask(call, length, rows);
    if (status === NO_ROOM) {
      arena.reach(rows + arena.count * ROW);
      status = this.#ask(call, length, rows);
    }
    return { status, rows, length, count: arena.count };
  }

  #flatten(depth) {
    return (at, len, rows, cap, count) => this.#calls.rlp_flatten(at, len, depth, rows, cap, count);
  }

  /** The rows of all the bytes, or of the item that they begin with. */
  #rowsOf(bytes, maxDepth, isFirst = false) {
    const depth = depthOf(maxDepth);
    const found = this.#fill(bytes, this.#flatten(depth), isFirst);
    if (found.status !== OK) throw new RlpError(found.status, { place: this.#walk(found.length, depth) });
    return found;
  }

  /** The rows and the bytes, where they are in the arena. */
  #view(rows, count, length) {
    const { bytes, words, start } = this.#arena;
    return new Rows(this.#arena, words.subarray(rows / 4, rows / 4 + count * 8), bytes.subarray(start, start + length));
  }

  /** Throws if there was another call since. */
  #goOn(call) {
    if (this.#arena.calls !== call) throw new Error("another call has taken the memory of this one");
  }

  /** Where the item begins that rlp_flatten refuses. */
  #walk(length, maxDepth) {
    return finished(this.#steps(length, maxDepth));
  }

  /** The walk of rlp_flatten once more, header by header, over the bytes in the arena, up to the item that is refused. Others are seen. */
  *#steps(length, maxDepth, seen) {
    const calls = this.#calls;
    const call = this.#arena.calls;
    const { start, result, words } = this.#arena;
    const [at, out] = [result / 4, BigInt(result)];
    const ends = [length];
    let place = 0;
    for (let count = 1; place < length || ends.length === 1; count++) {
      if (count % STEP === 0) {
        yield place;
        this.#goOn(call);
      }
      while (ends.length > 1 && place === ends[ends.length - 1]) ends.pop();
      const open = ends.length - 1;
      const from = BigInt(start + place);
      if (calls.rlp_header(from, BigInt(ends[open] - place), out) !== OK) return place;
      const begin = place + words[at + HEADER_LEN];
      const size = wordsAt(words, at + PAYLOAD_LEN);
      const isList = words[at + IS_LIST];
      const end = begin + size;
      if (open === 0 && end < length) return place;
      if (isList && open === maxDepth) return place;
      // Only a string of one byte with a header may have a fault that its header doesn't.
      if (!isList && size === 1 && begin > place && calls.rlp_decode_bytes(from, BigInt(end - place), 1, out) !== OK) return place;
      seen?.add(place, begin - place, size, open, isList);
      if (isList) ends.push(end);
      else if (open === 0) return end;
      place = isList ? begin : end;
    }
    return place;
  }

  encode(input) {
    return finished(this.encodeInSteps(input));
  }

  /** The same as an iterator. Its steps are some thousands of items, or a call of the library. It returns what `encode` does. */
  *encodeInSteps(input) {
    // For each item its string, or nothing for a list, and its depth.
    const strings = [];
    const depths = [];
    let size = 0;
    // The list that is walked, and where, and the same of the lists around it.
    let [list, at] = [[input], 0];
    const outer = [];
    for (let count = 1; at < list.length || outer.length > 0; count++) {
      if (count % STEP === 0) yield depths.length;
      if (at === list.length) {
        [list, at] = outer.pop();
        continue;
      }
      const value = list[at++];
      depths.push(outer.length);
      if (Array.isArray(value)) {
        if (outer.length >= DEPTH_LIMIT) throw new RlpError(TOO_DEEP);
        strings.push(undefined);
        outer.push([list, at]);
        [list, at] = [value, 0];
        continue;
      }
      const string = this.#outside(value instanceof Uint8Array ? value : stringOf(value));
      strings.push(string);
      size += string.length;
    }
    if (depths.length > STEP) yield depths.length;
    return this.#encoded(strings, depths, size);
  }

  /** The encoding of items, of which `encodeInSteps` says how they are given. */
  #encoded(strings, depths, size) {
    const arena = this.#arena;
    arena.calls++;
    const items = strings.length;
    const from = arena.start + items * ROW;
    const to = from + size;
    const room = size + 9 * items;
    arena.reach(to + room);
    const { words, bytes } = arena;
    let place = 0;
    words.fill(0, arena.start / 4, arena.start / 4 + items * 8);
    for (let item = 0, at = arena.start / 4; item < items; item++, at += 8) {
      const string = strings[item];
      words[at + DEPTH] = depths[item];
      if (string === undefined) {
        words[at + IS_LIST] = 1;
        continue;
      }
      const { length } = string;
      const begin = from + place;
      words[at] = place;
      if (place > 0xffff_ffff) words[at + 1] = place / 0x1_0000_0000;
      words[at + PAYLOAD_LEN] = length;
      if (length > 0xffff_ffff) words[at + PAYLOAD_LEN + 1] = length / 0x1_0000_0000;
      if (length < 48) for (let byte = 0; byte < length; byte++) bytes[begin + byte] = string[byte];
      else bytes.set(string, begin);
      place += length;
    }
    const status = this.#calls.rlp_encode(
      BigInt(arena.start), BigInt(items), BigInt(from), BigInt(size), BigInt(to), BigInt(room), BigInt(arena.result),
    );
    if (status !== OK) throw new RlpError(status);
    return bytes.slice(to, to + arena.count);
  }

  /** The values of rows, whose strings share one copy of the bytes. */
  #valuesOf({ rows, count, length }) {
    const { words, start } = this.#arena;
    const buffer = this.#arena.buffer.slice(start, start + length);
    const lists = [];
    let whole;
    for (let item = 0, at = rows / 4; item < count; item++, at += 8) {
      const depth = words[at + DEPTH];
      let value;
      if (words[at + IS_LIST]) {
        value = [];
        lists[depth] = value;
      } else {
        const begin = wordsAt(words, at) + words[at + HEADER_LEN];
        value = new Uint8Array(buffer, begin, wordsAt(words, at + PAYLOAD_LEN));
      }
      if (depth === 0) whole = value;
      else lists[depth - 1].push(value);
    }
    return whole;
  }

  /** The long string that bytes are, or that they begin with, and how many bytes its encoding has. There is none if the bytes are refused. */
  #longString(bytes, isFirst) {
    const arena = this.#arena;
    arena.begin(bytes, MOST_OF_HEADER);
    const status = this.#calls.rlp_header(BigInt(arena.start), BigInt(bytes.length), BigInt(arena.result));
    const { headerLength, payloadLength } = itemAt(arena.words, arena.result / 4);
    const length = headerLength + payloadLength;
    return status === OK && (isFirst || length === bytes.length) ? { data: bytes.slice(headerLength, length), length } : null;
  }

  decode(input, options = false) {
    const { maxDepth = DEPTH_LIMIT, stream = false } = typeof options === "object" && options !== null ? options : { stream: Boolean(options) };
    const bytes = this.#outside(stringOf(input));
    const depth = depthOf(maxDepth);
    const string = isLongString(bytes) ? this.#longString(bytes, stream) : null;
    const found = string ?? (bytes.length > 0 && this.#rowsOf(bytes, depth, stream));
    const data = string?.data ?? (found ? this.#valuesOf(found) : new Uint8Array(0));
    return stream ? { data, remainder: bytes.slice(found ? found.length : 0) } : data;
  }

  /** The whole item. Its rows and bytes are copied, and what is in it is made when it is asked for. */
  tree(input, { maxDepth = DEPTH_LIMIT } = {}) {
    const bytes = this.#outside(bytesOf(input));
    const { rows, count } = this.#rowsOf(bytes, maxDepth);
    const { buffer, start } = this.#arena;
    // The rows follow the bytes, so that one copy has both.
    const copy = buffer.slice(start, rows + count * ROW);
    return new Tree(new Uint32Array(copy, rows - start, count * 8), copy, 0);
  }

  isCanonical(input, { maxDepth = DEPTH_LIMIT } = {}) {
    const bytes = this.#outside(bytesOf(input));
    const { length } = bytes;
    this.#arena.begin(bytes, isLongString(bytes) ? MOST_OF_HEADER : length);
    return this.#calls.rlp_is_canonical(BigInt(this.#arena.start), BigInt(length), depthOf(maxDepth)) === 1;
  }

  flatten(input, { maxDepth = DEPTH_LIMIT } = {}) {
    const bytes = this.#outside(bytesOf(input));
    const { length } = bytes;
    const { rows, count } = this.#rowsOf(bytes, maxDepth);
    return this.#view(rows, count, length);
  }

  /** The items up to the first fault, and the fault or null. */
  inspect(input, options) {
    return finished(this.inspectInSteps(input, options));
  }

  /** The same as an iterator. Its steps are a call of the library, or some thousands of items. It returns what `inspect` does. */
  *inspectInSteps(input, { maxDepth = DEPTH_LIMIT } = {}) {
    const bytes = this.#outside(bytesOf(input));
    const depth = depthOf(maxDepth);
    const { length } = bytes;
    const arena = this.#arena;
    const rows = arena.begin(bytes);
    const call = arena.calls;
    yield 0;
    this.#goOn(call);
    let status = this.#ask(this.#flatten(depth), length, rows);
    if (status === NO_ROOM) {
      yield 0;
      this.#goOn(call);
      arena.reach(rows + arena.count * ROW);
      status = this.#ask(this.#flatten(depth), length, rows);
    }
    yield 0;
    this.#goOn(call);
    if (status === OK) return { rows: this.#view(rows, arena.count, length).copy(), fault: null };
    const seen = new WordsOfRows();
    const copy = bytes.slice();
    const place = yield* this.#steps(length, depth, seen);
    return { rows: new Rows(null, seen.words.subarray(0, seen.used), copy), fault: new RlpError(status, { place }) };
  }

  header(input) {
    const bytes = this.#outside(bytesOf(input));
    const { length } = bytes;
    const arena = this.#arena;
    arena.begin(bytes, MOST_OF_HEADER);
    const status = this.#calls.rlp_header(BigInt(arena.start), BigInt(length), BigInt(arena.result));
    if (status !== OK) throw new RlpError(status, { place: 0 });
    return itemAt(arena.words, arena.result / 4);
  }

  #record(bytes, start, call, namesOf) {
    const { length } = bytes;
    const { status, rows, count } = this.#fill(bytes, call);
    const names = namesOf();
    if (status !== OK) throw new RlpError(status, { field: count, fieldName: names?.[count - 1]?.name, place: this.#placeOf(start, length, count) });
    const { words } = this.#arena;
    return Array.from({ length: count }, (_, item) => ({ ...names[item], ...itemAt(words, rows / 4 + item * 8) }));
  }

  /** Where the field of a record begins. */
  #placeOf(start, length, field) {
    if (field === 0) return 0;
    const { words, result, start: from } = this.#arena;
    let place = start;
    for (let passed = 0; passed < field; passed++) {
      if (this.#calls.rlp_header(BigInt(from + place), BigInt(length - place), BigInt(result)) !== OK) return place;
      const { headerLength, payloadLength } = itemAt(words, result / 4);
      place += headerLength + (passed === 0 ? 0 : payloadLength);
    }
    return place;
  }

  #valueOf(bytes, { kind, offset, headerLength, payloadLength }) {
    const begin = offset + headerLength;
    const payload = () => bytes.slice(begin, begin + payloadLength);
    if (kind === "number") return numberOf(payload());
    if (kind === "bytes") return payload();
    if (kind === "to") return payloadLength === 0 ? null : payload();
    const list = this.decode(bytes.subarray(offset, begin + payloadLength));
    if (kind === "access") return list.map(([address, storageKeys]) => ({ address, storageKeys }));
    if (kind === "list") return list;
    return list.map((each) =>
      Object.fromEntries(AUTHORIZATION.map(({ name, kind: inner }, at) => [name, inner === "number" ? numberOf(each[at]) : each[at]])),
    );
  }

  #fieldsOf(bytes, items) {
    return Object.fromEntries(items.map((item) => [item.name, this.#valueOf(bytes, item)]));
  }

  transaction(input) {
    const bytes = this.#outside(bytesOf(input));
    const arena = this.#arena;
    const typeAt = arena.result + 32;
    const type = () => arena.words[typeAt / 4];
    const start = bytes.length > 0 && bytes[0] < 0xc0 ? 1 : 0;
    arena.words[typeAt / 4] = TRANSACTIONS.length;
    const call = (at, len, rows, cap, count) => this.#calls.rlp_transaction(at, len, BigInt(typeAt), rows, cap, count);
    const items = this.#record(bytes, start, call, () => TRANSACTIONS[type()]);
    const number = type();
    return { type: number, typeName: TRANSACTION_NAMES[number], fields: this.#fieldsOf(bytes, items), items };
  }

  headerFields(input) {
    const bytes = this.#outside(bytesOf(input));
    const call = (at, len, rows, cap, count) => this.#calls.rlp_header_fields(at, len, rows, cap, count);
    const items = this.#record(bytes, 0, call, () => HEADER);
    return { fork: FORKS[items.length], fields: this.#fieldsOf(bytes, items), items };
  }
}

/** Compiles the module, from its bytes or the answer of `fetch`, and makes a codec with a memory of its own. */
export async function load(source) {
  const given = await source;
  let module = given;
  if (!(given instanceof WebAssembly.Module)) {
    const bytes = typeof Response === "function" && given instanceof Response ? await given.arrayBuffer() : given;
    try {
      module = await WebAssembly.compile(bytes);
    } catch (error) {
      if (!(error instanceof WebAssembly.CompileError)) throw error;
      throw new Error(`The module needs 64-bit memories of WebAssembly, as Chrome 133 or Firefox 134 have, and Node with --experimental-wasm-memory64 before 24: ${error.message}`, { cause: error });
    }
  }
  return new Codec(await WebAssembly.instantiate(module, {}));
}

/** The functions of a codec, each a separate export. */
export function functionsOf(codec) {
  const names = ["encode", "encodeInSteps", "decode", "isCanonical", "flatten", "tree", "inspect", "inspectInSteps", "header", "transaction", "headerFields"];
  return Object.fromEntries(names.map((name) => [name, codec[name].bind(codec)]));
}
