/** A plain second implementation, which shares no code with the library. */

/** The name of a fault, where the item begins that has it, and for a record the number of the field. */
export class Fault extends Error {
  constructor(name, place, field) {
    super(`${name} at ${place}`);
    Object.assign(this, { name, place, field });
  }
}

/** Where the payload begins and ends of the item at a place, which ends before `end`. */
function header(data, place, end) {
  if (place === end) throw new Fault("RlpIsTooShort", place);
  const first = data[place];
  if (first < 0x80) return [place, place + 1];
  const base = first < 0xc0 ? 0x80 : 0xc0;
  let start = place + 1;
  let length = first - base;
  if (length > 55) {
    if (start === end) throw new Fault("RlpIsTooShort", place);
    if (data[start] === 0) throw new Fault(base === 0x80 ? "RlpDataLenWithZeroPrefix" : "RlpListLenWithZeroPrefix", place);
    start += length - 55;
    if (start > end) throw new Fault("RlpIsTooShort", place);
    length = 0;
    // Beyond 2^53 the number isn't exact, but then it is too great in any case.
    for (let at = place + 1; at < start; at++) length = length * 256 + data[at];
    if (length <= 55) throw new Fault("RlpInvalidIndirection", place);
  }
  if (start + length > end) throw new Fault("RlpIsTooShort", place);
  return [start, start + length];
}

/** The value of the item at a place, and where it ends. */
function item(data, place, end, lists) {
  const [start, stop] = header(data, place, end);
  if (data[place] < 0xc0) {
    if (stop - start === 1 && start > place && data[start] < 0x80) throw new Fault("RlpInvalidIndirection", place);
    return [data.slice(start, stop), stop];
  }
  if (lists === 0) throw new Fault("RlpTooDeep", place);
  const values = [];
  let next = start;
  while (next < stop) {
    let value;
    [value, next] = item(data, next, stop, lists - 1);
    values.push(value);
  }
  return [values, stop];
}

/** The value whose canonical encoding the bytes are. */
export function decode(data, maxDepth = 256) {
  if (header(data, 0, data.length)[1] < data.length) throw new Fault("RlpIsTooBig", 0);
  return item(data, 0, data.length, maxDepth)[0];
}

/** The value of the item that the bytes begin with, and the bytes behind it. */
export function first(data, maxDepth = 256) {
  const [value, end] = item(data, 0, data.length, maxDepth);
  return [value, data.slice(end)];
}

/** The rows of the items, as objects. */
export function flatten(data) {
  if (header(data, 0, data.length)[1] < data.length) throw new Fault("RlpIsTooBig", 0);
  const rows = [];
  const add = (place, end, depth) => {
    const [start, stop] = header(data, place, end);
    const isList = data[place] >= 0xc0;
    if (!isList && stop - start === 1 && start > place && data[start] < 0x80) throw new Fault("RlpInvalidIndirection", place);
    rows.push({ offset: place, headerLength: start - place, payloadLength: stop - start, depth, isList });
    if (isList) for (let next = start; next < stop; ) next = add(next, stop, depth + 1);
    return stop;
  };
  add(0, data.length, 0);
  return rows;
}

/** The header of a payload of this length. */
export function writtenHeader(base, length) {
  if (length <= 55) return Uint8Array.of(base + length);
  const digits = [];
  for (let rest = length; rest > 0; rest = Math.floor(rest / 256)) digits.unshift(rest % 256);
  return Uint8Array.of(base + 55 + digits.length, ...digits);
}

export function joined(parts) {
  const out = new Uint8Array(parts.reduce((sum, part) => sum + part.length, 0));
  let place = 0;
  for (const part of parts) {
    out.set(part, place);
    place += part.length;
  }
  return out;
}

/** The encoding of bytes, or of a list of values. */
export function encode(value) {
  if (value instanceof Uint8Array) {
    if (value.length === 1 && value[0] < 0x80) return value;
    return joined([writtenHeader(0x80, value.length), value]);
  }
  const payload = joined(value.map(encode));
  return joined([writtenHeader(0xc0, payload.length), payload]);
}

// The order of the group of secp256k1, in SEC 2.
const ORDER = 0xfffffffffffffffffffffffffffffffebaaedce6af48a03bbfd25e8cd0364141n;

// The kinds of the fields of each record: a number of at most so many bytes, a string of so many, 0 or 1, a number of a
// signature, an address or nothing, any string, and in brackets a list of fields, or of any number of one kind behind
// "each".
const ACCESS_LIST = ["each", [20, ["each", 32]]];
const AUTHORIZATIONS = ["each", ["n32", 20, "n8", "n1", "n32", "n32"]];
const SIGNED = ["bit", "scalar", "scalar"];
const FEES = ["n8", "n8", "n32", "n32", "n8"];
const TRANSACTIONS = [
  ["n8", "n32", "n8", "to", "n32", "any", "n32", "scalar", "scalar"],
  ["n8", "n8", "n32", "n8", "to", "n32", "any", ACCESS_LIST, ...SIGNED],
  [...FEES, "to", "n32", "any", ACCESS_LIST, ...SIGNED],
  [...FEES, 20, "n32", "any", ACCESS_LIST, "n32", ["each", 32], ...SIGNED],
  [...FEES, 20, "n32", "any", ACCESS_LIST, AUTHORIZATIONS, ...SIGNED],
];
const HEADER = [32, 32, 20, 32, 32, 32, 256, "n32", "n8", "n8", "n8", "n8", "any", 32, 8, "n32", 32, "n8", "n8", 32, 32, 32, "n8"];

/** Throws the fault of a field's string. */
function checkString(string, kind) {
  const width = { bit: 1, scalar: 32 }[kind] ?? (typeof kind === "string" && /^n\d/.test(kind) ? Number(kind.slice(1)) : undefined);
  if (typeof kind === "number" || (kind === "to" && string.length > 0)) {
    const length = kind === "to" ? 20 : kind;
    if (string.length !== length) throw new Fault(string.length < length ? "RlpIsTooShort" : "RlpIsTooBig", 0);
  } else if (width !== undefined) {
    if (string.length > width) throw new Fault("RlpIsTooBig", 0);
    if (string[0] === 0) throw new Fault("RlpInvalidIndirection", 0);
    const value = string.reduce((above, byte) => above * 256n + BigInt(byte), 0n);
    const refused = kind === "bit" ? value > 1n : kind === "scalar" && (value === 0n || value >= ORDER);
    if (refused) throw new Fault("RlpInvalidSignature", 0);
  }
}

/** Throws the fault of the fields from a place on, with the place and the number of its field: first that they are too few or too many. */
function checkFields(data, from, end, kinds) {
  const places = [from];
  while (places.at(-1) < end) places.push(header(data, places.at(-1), end)[1]);
  const count = places.length - 1;
  const allowed = kinds === HEADER ? [15, 16, 17, 20, 21, 22, 23] : kinds[0] === "each" ? [count] : [kinds.length];
  if (!allowed.includes(count)) {
    const at = Math.min(count, kinds.length);
    throw new Fault("RlpIncorrectListLen", places[at], at + 1);
  }
  for (let at = 0; at < count; at++) {
    const [place, stop] = places.slice(at);
    const kind = kinds[0] === "each" ? kinds[1] : kinds[at];
    try {
      if (!Array.isArray(kind)) {
        if (data[place] >= 0xc0) throw new Fault("RlpExpectedToBeData", 0);
        checkString(item(data, place, stop, 0)[0], kind);
      } else if (data[place] < 0xc0) throw new Fault("RlpExpectedToBeList", 0);
      else checkFields(data, ...header(data, place, stop), kind);
    } catch (fault) {
      throw new Fault(fault.name, place, at + 1);
    }
  }
}

/** The values of the fields of a record that begins at a place. */
function record(data, start, kinds) {
  let first;
  let end;
  try {
    if (start === data.length || data[start] < 0xc0) throw new Fault("RlpExpectedToBeList", 0);
    [first, end] = header(data, start, data.length);
    if (end < data.length) throw new Fault("RlpIsTooBig", 0);
    for (let place = first; place < end; ) [, place] = header(data, place, end);
  } catch (fault) {
    throw new Fault(fault.name, 0, 0);
  }
  checkFields(data, first, end, kinds);
  return item(data, start, end, 256)[0];
}

/** The fields of a header. */
export function headerFields(data) {
  return record(data, 0, HEADER);
}

/** The type and the fields of a transaction. */
export function transaction(data) {
  if (data.length === 0) throw new Fault("RlpIsTooShort", 0, 0);
  const number = data[0] >= 0xc0 ? 0 : data[0] || 256;
  if (!(number in TRANSACTIONS)) throw new Fault("RlpUnknownType", 0, 0);
  return [number, record(data, number > 0 ? 1 : 0, TRANSACTIONS[number])];
}
