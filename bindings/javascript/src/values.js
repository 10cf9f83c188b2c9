/** Byte strings, and the values that stand for them. */

const EMPTY = new Uint8Array(0);
const utf8 = new TextEncoder();

/** The value of each hexadecimal digit by its character code, and 255 for other characters. */
const DIGITS = new Uint8Array(128).fill(255);
for (const [at, digit] of [..."0123456789abcdef"].entries()) {
  DIGITS[digit.charCodeAt(0)] = DIGITS[digit.toUpperCase().charCodeAt(0)] = at;
}

function digitAt(text, at) {
  const code = text.charCodeAt(at);
  const digit = code < 128 ? DIGITS[code] : 255;
  if (digit === 255) throw new TypeError(`there is no hexadecimal digit at ${at}`);
  return digit;
}

/** The bytes of hexadecimal digits behind `0x`. An odd number of digits has a 0 in front. */
export function fromHex(text) {
  const from = text.startsWith("0x") ? 2 : 0;
  const odd = (text.length - from) % 2;
  const bytes = new Uint8Array((text.length - from + odd) / 2);
  if (odd) bytes[0] = digitAt(text, from);
  for (let to = odd, at = from + odd; to < bytes.length; to++, at += 2) bytes[to] = digitAt(text, at) * 16 + digitAt(text, at + 1);
  return bytes;
}

const PAIRS = Array.from({ length: 256 }, (_, byte) => byte.toString(16).padStart(2, "0"));

/** The hexadecimal digits of bytes, behind `0x`. */
export function toHex(bytes) {
  let text = "0x";
  for (let at = 0; at < bytes.length; at++) text += PAIRS[bytes[at]];
  return text;
}

function ofNumber(number) {
  if (typeof number === "number" && !Number.isSafeInteger(number)) throw new TypeError(`${number} isn't a whole number that is exact`);
  if (number < 0) throw new TypeError("a number below zero has no encoding");
  return number == 0 ? EMPTY : fromHex(number.toString(16));
}

/** The bytes of an array without what a class above it, as Node's Buffer, does in its own way. */
const plainly = (bytes) => (bytes.constructor === Uint8Array ? bytes : new Uint8Array(bytes.buffer, bytes.byteOffset, bytes.length));

/** The string of a value that is no list. */
export function stringOf(value) {
  if (value instanceof Uint8Array) return plainly(value);
  if (typeof value === "string") return value.startsWith("0x") ? fromHex(value) : utf8.encode(value);
  if (typeof value === "bigint" || typeof value === "number") return ofNumber(value);
  if (value === null || value === undefined) return EMPTY;
  throw new TypeError(`a value of the type ${typeof value} has no encoding`);
}

/** The bytes that a caller gives to be read. */
export function bytesOf(value) {
  if (value instanceof Uint8Array) return plainly(value);
  if (typeof value === "string" && value.startsWith("0x")) {
    if (value.length % 2) throw new TypeError("there is half a byte");
    return fromHex(value);
  }
  throw new TypeError("bytes are a Uint8Array, or text that begins with 0x");
}

export function numberOf(bytes) {
  return bytes.length === 0 ? 0n : BigInt(toHex(bytes));
}

/** The bytes of base64. */
export function fromBase64(text) {
  return Uint8Array.from(atob(text), (letter) => letter.charCodeAt(0));
}
