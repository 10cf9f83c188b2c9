// run.js PACKAGE [SEED [N]]: the tests of a package that `build.js` made, with N random encodings, 30,000 if not given.
// It ends with `N passed, M failed`. A test is a row, a random encoding, or a call of its own.
import fs from "node:fs";
import path from "node:path";
import { fileURLToPath, pathToFileURL } from "node:url";
import { isDeepStrictEqual } from "node:util";
import * as plain from "./plain.js";

const here = path.dirname(fileURLToPath(import.meta.url));
const folder = path.resolve(process.argv[2]);
const of = (name) => import(pathToFileURL(path.join(folder, "src", name)));
const rlp = await of("node.js");
const embedded = await of("embedded.js");
const [SEED, COUNT] = [Number(process.argv[3] ?? 1), Number(process.argv[4] ?? 30_000)];

let passed = 0;
let failed = 0;
const seen = new Map();

function check(name, found, wanted) {
  if (isDeepStrictEqual(found, wanted)) return void passed++;
  failed++;
  if (failed <= 20) console.log(`${name}: found`, found, "wanted", wanted);
}

function checkThat(name, holds) {
  check(name, holds, true);
}

/** What a call gives, or the fault. */
function told(call, ...given) {
  try {
    return call(...given);
  } catch (error) {
    if (error instanceof rlp.RlpError) seen.set(error.status, error.name);
    else if (!(error instanceof plain.Fault)) throw error;
    return { fault: error.name, place: error.place, ...(error.field !== undefined && { field: error.field }) };
  }
}

function thrown(call, ...given) {
  try {
    return [call(...given)].map(() => "nothing")[0];
  } catch (error) {
    return error instanceof rlp.RlpError ? error.name : error.constructor.name;
  }
}

/** Numbers that are the same for the same seed: mulberry32. */
let state = SEED;
function random() {
  state = (state + 0x6d2b79f5) | 0;
  let mixed = Math.imul(state ^ (state >>> 15), 1 | state);
  mixed = (mixed + Math.imul(mixed ^ (mixed >>> 7), 61 | mixed)) ^ mixed;
  return ((mixed ^ (mixed >>> 14)) >>> 0) / 2 ** 32;
}
const below = (end) => Math.floor(random() * end);
const choice = (all) => all[below(all.length)];

const LENGTHS = [0, 1, 1, 2, 3, 8, 20, 32, 54, 55, 56, 57, 255, 256, 300];
const OFTEN = [0, 0x37, 0x38, 0x7f, 0x80, 0x81, 0xb7, 0xb8, 0xbf, 0xc0, 0xf7, 0xf8, 0xff];

function randomValue(depth) {
  if (depth === 0 || random() < 0.5) return Uint8Array.from({ length: choice(LENGTHS) }, () => below(256));
  return Array.from({ length: choice([0, 1, 2, 3, 9]) }, () => randomValue(depth - 1));
}

/** An encoding in which one header in sixteen is in front of a byte that needs none, or has a needless length. */
function odd(value) {
  const isString = value instanceof Uint8Array;
  if (isString && random() < 15 / 16) return plain.encode(value);
  const base = isString ? 0x80 : 0xc0;
  const payload = isString ? value : plain.joined(value.map(odd));
  const { length } = payload;
  if (length > 55 || (!isString && random() < 15 / 16)) return plain.joined([plain.writtenHeader(base, length), payload]);
  return plain.joined([Uint8Array.from(choice([[base + length], [base + 56, length], [base + 57, 0, length]])), payload]);
}

/** The bytes with one changed, dropped or added, or cut. */
function spoiled(data) {
  const at = below(data.length);
  const kind = below(8);
  const byte = Uint8Array.of(random() < 0.5 ? choice(OFTEN) : below(256));
  if (kind === 7) return data.slice(0, at);
  return plain.joined([data.slice(0, at), kind === 6 ? new Uint8Array(0) : byte, data.slice(at + (kind === 5 ? 0 : 1))]);
}

const text = (value) => (value instanceof Uint8Array ? `"${rlp.toHex(value)}"` : `[${value.map(text).join(", ")}]`);
const rowsOf = (name) => fs.readFileSync(path.join(here, "../..", name), "utf8").split("\n").filter((line) => line && line[0] !== "#");

function testVectors() {
  for (const row of rowsOf("vectors")) {
    const [digits, wanted] = row.split(" => ");
    // No bytes have a value for `decode` alone.
    const found = digits ? told(rlp.decode, `0x${digits}`) : told(rlp.flatten, "0x");
    check(row.slice(0, 99), found.fault ? `${found.fault} at ${found.place}` : text(found), wanted);
    const read = told(rlp.tree, `0x${digits}`);
    check(`tree ${digits.slice(0, 99)}`, read.fault ? `${read.fault} at ${read.place}` : text(read.value()), wanted);
    check(`canonical ${digits.slice(0, 99)}`, rlp.isCanonical(`0x${digits}`), !wanted.includes(" at "));
    if (!found.fault) check(`again ${digits.slice(0, 99)}`, rlp.toHex(rlp.encode(found)), `0x${digits}`);
  }
}

const CALLS = {
  transaction: [rlp.transaction, plain.transaction],
  header: [rlp.headerFields, plain.headerFields],
};
const records = rowsOf("records").map((row) => {
  const [, call, digits, wanted] = /^(\w+) (\w*) => (.*)$/.exec(row);
  return { calls: CALLS[call], bytes: rlp.fromHex(`0x${digits}`), wanted };
});

/** The field of plain code that a named value stands for. */
function again(value) {
  if (value === null) return new Uint8Array(0);
  if (typeof value === "bigint") return rlp.decode(rlp.encode(value));
  if (value instanceof Uint8Array) return value;
  if (Array.isArray(value)) return value.map(again);
  return Object.values(value).map(again);
}

const plainBytes = (value) => (value instanceof Uint8Array ? Uint8Array.from(value) : value.map(plainBytes));

/** A record and its fault, for the package and plain code. */
function bothRecords([ours, theirs], bytes) {
  const found = told(ours, bytes);
  const model = told(theirs, bytes);
  if (found.fault || model.fault) return [found, model];
  const fields = plainBytes(again(Object.values(found.fields)));
  const type = found.type ?? "header";
  return [[type, fields], Array.isArray(model) && typeof model[0] === "number" ? model : ["header", model]];
}

function testRecords() {
  for (const { calls, bytes, wanted } of records) {
    const found = told(calls[0], bytes);
    const type = found.type === undefined ? "" : `type ${found.type}, `;
    check(wanted, found.fault ? `${found.fault} at ${found.field}` : `${type}${found.items.length} fields`, wanted);
    check(`${wanted}, as plain code`, ...bothRecords(calls, bytes));
  }
}

/** The value by the items that are asked for one by one, from the last, or the fault. */
function treeOf(data, maxDepth) {
  const read = (item) => {
    if (!item.isList) return Uint8Array.from(item.bytes);
    return Array.from({ length: item.length }, (_, at) => read(item.at(-1 - at))).reverse();
  };
  const found = told(rlp.tree, data, { maxDepth });
  return found.fault ? found : read(found);
}

/** Whether the first item and the bytes behind it are as plain code finds them, where bytes follow. */
function holdsInStream(data, maxDepth) {
  const more = plain.joined([data, Uint8Array.from({ length: below(4) }, () => below(256))]);
  const wanted = told(plain.first, more, maxDepth);
  const found = told(rlp.decode, more, { maxDepth, stream: true });
  if (more.length === 0) return isDeepStrictEqual(found, { data: more, remainder: more });
  return isDeepStrictEqual(found.fault ? found : [plainBytes(found.data), found.remainder], wanted);
}

function testRandom() {
  for (let count = 0; count < COUNT; count++) {
    const value = randomValue(below(6));
    let data = rlp.encode(value);
    const name = () => rlp.toHex(data).slice(0, 200);
    const wrote = isDeepStrictEqual(data, plain.encode(value));
    if (random() < 0.25) data = odd(value);
    if (random() < 0.25) data = spoiled(data);
    const maxDepth = random() < 0.75 ? 256 : below(5);
    const wanted = told(plain.decode, data, maxDepth);
    const found = told(rlp.decode, data, { maxDepth });
    let holds = wrote && (data.length === 0 || isDeepStrictEqual(wanted.fault ? found : plainBytes(found), wanted));
    holds &&= holdsInStream(data, maxDepth);
    holds &&= isDeepStrictEqual(treeOf(data, maxDepth), wanted);
    holds &&= rlp.isCanonical(data, { maxDepth }) === !wanted.fault;
    if (holds && !wanted.fault) {
      holds &&= isDeepStrictEqual([...rlp.flatten(data, { maxDepth })], plain.flatten(data));
      holds &&= rlp.inspect(data, { maxDepth }).fault === null;
    } else if (holds) {
      const { rows, fault } = rlp.inspect(data, { maxDepth });
      holds &&= fault.name === wanted.fault && [...rows].every(({ offset }) => offset < Math.max(wanted.place, 1));
    }
    if (holds) passed++;
    else check(name(), found, wanted);
  }
}

function testSpoiledRecords() {
  const whole = records.filter(({ bytes }) => bytes.length > 0);
  for (let count = 0; count < COUNT; count++) {
    const { calls, bytes } = choice(whole);
    let data = bytes;
    for (let times = choice([1, 1, 2]); times > 0; times--) data = data.length ? spoiled(data) : Uint8Array.of(0xc0);
    check(rlp.toHex(data).slice(0, 200), ...bothRecords(calls, data));
  }
}

/** The statuses that no function of the package answers with, by the exports themselves. */
async function testStatuses() {
  const { instance } = await WebAssembly.instantiate(fs.readFileSync(path.join(folder, "src/rlp.wasm")), {});
  const { exports } = instance;
  const bytes = new Uint8Array(exports.memory.buffer);
  const at = Math.ceil(Number(exports.__heap_base.value) / 64) * 64;
  const [from, to, count] = [BigInt(at), BigInt(at + 512), BigInt(at + 1024)];
  const read = (digits, call) => {
    const given = rlp.fromHex(digits);
    bytes.set(given, at);
    return call(BigInt(given.length));
  };
  const statuses = {
    4: read("c0", (len) => exports.rlp_decode_bytes(from, len, 1, to)),
    9: read("8261", (len) => exports.rlp_decode_bytes(from, len, 1, to)),
    10: read("bfffffffffffffffff", (len) => exports.rlp_decode_bytes(from, len, 1, to)),
    13: exports.rlp_encode_u64(1000n, to, 1n, count),
    14: read("c2c1c0", (len) => exports.rlp_flatten(from, len, 1, to, 9n, count)),
  };
  bytes.fill(0, at, at + 64);
  new Uint32Array(exports.memory.buffer)[at / 4 + 6] = 1;
  statuses[15] = exports.rlp_encode(from, 1n, from, 0n, to, 9n, count);
  for (const [status, found] of Object.entries(statuses)) {
    check(`status ${status}`, found, Number(status));
    seen.set(Number(status), new rlp.RlpError(Number(status)).name);
  }
  told(rlp.decode, "0xc2c1c0", { maxDepth: 1 });
  const header = fs.readFileSync(path.join(here, "../../c/rlp.h"), "utf8");
  const declared = [...header.matchAll(/RLP_(\w+) = (\d+)/g)].map(([, name, number]) => [Number(number), name]);
  for (const [number, name] of declared) {
    if (number === 0) continue;
    const pascal = `Rlp${name.toLowerCase().replace(/(?:^|_)(\w)/g, (_, letter) => letter.toUpperCase())}`;
    check(`status ${number} was seen by its name`, seen.get(number), pascal);
  }
  const functions = [...header.matchAll(/^\w+ (rlp_\w+)\(/gm)].map(([, name]) => name).sort();
  check("the exports of the module", Object.keys(exports).filter((name) => name.startsWith("rlp_")).sort(), functions);
}

/** The names of the fields, in their order in the EIPs. */
function testNames() {
  const signed = ["yParity", "r", "s"];
  const fees = ["chainId", "nonce", "maxPriorityFeePerGas", "maxFeePerGas", "gasLimit", "to", "value", "data", "accessList"];
  const names = {
    0: ["nonce", "gasPrice", "gasLimit", "to", "value", "data", "v", "r", "s"],
    1: ["chainId", "nonce", "gasPrice", "gasLimit", "to", "value", "data", "accessList", ...signed],
    2: [...fees, ...signed],
    3: [...fees, "maxFeePerBlobGas", "blobVersionedHashes", ...signed],
    4: [...fees, "authorizationList", ...signed],
  };
  const [address, hash] = [new Uint8Array(20).fill(0xaa), new Uint8Array(32).fill(0xbb)];
  const set = { to: address, data: Uint8Array.of(1, 2), accessList: [[address, [hash]]], blobVersionedHashes: [hash], authorizationList: [[300n, address, 301n, 1n, 302n, 303n]], yParity: 1n };
  const read = { accessList: [{ address, storageKeys: [hash] }], authorizationList: [{ chainId: 300n, address, nonce: 301n, yParity: 1n, r: 302n, s: 303n }] };
  for (const [type, all] of Object.entries(names)) {
    const given = all.map((name, at) => set[name] ?? BigInt(1000 + at));
    const item = rlp.encode(given);
    const found = rlp.transaction(type === "0" ? item : plain.joined([Uint8Array.of(Number(type)), item]));
    check(`names of type ${type}`, found.fields, Object.fromEntries(all.map((name, at) => [name, read[name] ?? given[at]])));
    check(`items of type ${type}`, found.items.map(({ name }) => name), all);
  }
  const header = "parentHash ommersHash beneficiary stateRoot transactionsRoot receiptsRoot logsBloom difficulty number gasLimit gasUsed timestamp extraData mixHash nonce baseFeePerGas withdrawalsRoot blobGasUsed excessBlobGas parentBeaconBlockRoot requestsHash blockAccessListHash slotNumber".split(" ");
  const sizes = { beneficiary: 20, logsBloom: 256, nonce: 8, extraData: 5 };
  const numbers = ["difficulty", "number", "gasLimit", "gasUsed", "timestamp", "baseFeePerGas", "blobGasUsed", "excessBlobGas", "slotNumber"];
  const values = header.map((name, at) => (numbers.includes(name) ? BigInt(at + 1) : new Uint8Array(sizes[name] ?? 32).fill(at + 1)));
  for (const [count, fork] of Object.entries({ 15: "Frontier", 16: "London", 17: "Shanghai", 20: "Cancun", 21: "Prague", 22: "Amsterdam", 23: "Amsterdam" })) {
    const found = rlp.headerFields(rlp.encode(values.slice(0, count)));
    check(`header of ${count}`, [found.fork, found.fields], [fork, Object.fromEntries(header.slice(0, count).map((name, at) => [name, values[at]]))]);
  }
  check("no address", rlp.transaction(rlp.encode([1, 1, 1, null, 1, "", 27, 1, 1])).fields.to, null);
}

/** What `decode` takes and gives, as `@ethereumjs/rlp` has it. */
function testDecode() {
  const [empty, cat] = [new Uint8Array(0), rlp.fromHex("0x636174")];
  const cases = [
    [null, empty], [undefined, empty], ["", empty], ["0x", empty], [empty, empty], [0, empty], [0n, empty], [5, Uint8Array.of(5)],
    [0x83636174, cat], [0x83636174n, cat], ["0x83636174", cat], ["0x5", Uint8Array.of(5)], ["k", Uint8Array.of(0x6b)], [0xc0, []],
    [Buffer.from("83636174", "hex"), cat], [0xc3c20102, [[Uint8Array.of(1), Uint8Array.of(2)]]],
  ];
  for (const [given, wanted] of cases) {
    check(`decode ${String(given)}`, rlp.decode(given), wanted);
    check(`decode ${String(given)}, no stream`, rlp.decode(given, false), wanted);
  }
  for (const given of [[], ["0x80"], {}, true, -1, 1.5, 2 ** 53, "0xgg", () => 1]) check(`no byte string: ${String(given)}`, thrown(rlp.decode, given), "TypeError");
  check("text with more behind it", thrown(rlp.decode, "cat"), "RlpIsTooBig");
  check("stream", rlp.decode("0x83636174c0ff", true), { data: cat, remainder: Uint8Array.of(0xc0, 0xff) });
  check("stream, the last", rlp.decode(Uint8Array.of(0xc0), true), { data: [], remainder: empty });
  check("stream, nothing", rlp.decode(null, true), { data: empty, remainder: empty });
  check("stream, a fault", told(rlp.decode, "0xc3028105c0", true), { fault: "RlpInvalidIndirection", place: 2 });
  check("stream, too short", told(rlp.decode, "0x836361", true), { fault: "RlpIsTooShort", place: 0 });
  const bytes = rlp.fromHex("0x83636174c0");
  const { data, remainder } = rlp.decode(bytes, true);
  bytes.fill(0);
  check("what was given may change", [data, remainder], [cat, Uint8Array.of(0xc0)]);
  check("RLP", [rlp.RLP.encode, rlp.RLP.decode], [rlp.encode, rlp.decode]);
}

function testTree() {
  const item = rlp.tree("0xca83636174c583646f6780");
  check("its parts", [item.isList, item.length, item.offset, item.headerLength, item.payloadLength, item.depth], [true, 2, 0, 1, 10, 0]);
  const [cat, list] = item;
  check("a string", [cat.isList, cat.length, rlp.toHex(cat.bytes), cat.at(0), [...cat]], [false, 0, "0x636174", undefined, []]);
  check("a list", [list.isList, list.length, list.offset, list.depth, rlp.toHex(list.bytes)], [true, 2, 5, 1, "0x83646f6780"]);
  check("by place", [rlp.toHex(list.at(0).bytes), list.at(-1).payloadLength, list.at(2), list.at(-3)], ["0x646f67", 0, undefined, undefined]);
  rlp.tree("0x80");
  check("after another call", rlp.toHex(rlp.encode(item.value())), "0xca83636174c583646f6780");
}

function testSteps() {
  const data = plain.joined([plain.writtenHeader(0xc0, 40_002), new Uint8Array(40_000).fill(5), Uint8Array.of(0x81, 5)]);
  let count = 0;
  const steps = rlp.inspectInSteps(data);
  let step;
  for (step = steps.next(); !step.done; step = steps.next()) count++;
  check("steps", [count, step.value.rows.length, step.value.fault.name, step.value.fault.place], [11, 40_001, "RlpInvalidIndirection", 40_003]);
  check("the same at once", [...rlp.inspect(data).rows], [...step.value.rows]);
  const ended = rlp.inspectInSteps(data);
  ended.next();
  rlp.isCanonical("0x80");
  check("steps after another call", thrown(() => ended.next()), "Error");
  const value = Array.from({ length: 10_000 }, (_, at) => (at % 2 ? [at, [], "text"] : at));
  const given = [];
  const encoding = rlp.encodeInSteps(value);
  for (step = encoding.next(); !step.done; step = encoding.next()) {
    given.push(step.value);
    rlp.isCanonical("0x80");
  }
  check("steps of encode", [given.length, given.at(-1), given.every((count, at) => at === 0 || count > given[at - 1])], [9, 25_001, true]);
  check("what they give", step.value, rlp.encode(value));
  check("a fault in a step", thrown(() => [...rlp.encodeInSteps([1, [true]])]), "TypeError");
}

function testValues() {
  const hex = (value) => rlp.toHex(rlp.encode(value));
  const cases = [
    ["", "0x80"], [0, "0x80"], [0n, "0x80"], [null, "0x80"], [undefined, "0x80"], ["0x", "0x80"], [[], "0xc0"],
    ["cat", "0x83636174"], ["0x636174", "0x83636174"], ["0x5", "0x05"], ["0x123", "0x820123"], ["é", "0x82c3a9"],
    [1000, "0x8203e8"], [127, "0x7f"], [128n, "0x8180"], [2 ** 53 - 1, "0x871fffffffffffff"], [-0, "0x80"],
    [2n ** 256n, `0xa101${"00".repeat(32)}`], [["cat", ["dog", ""]], "0xca83636174c583646f6780"], ["0XAB", "0x8430584142"],
    [Buffer.from("cat"), "0x83636174"], [[1, [2n, "0x03"], null], "0xc501c2020380"],
  ];
  for (const [value, wanted] of cases) check(`encode ${String(value)}`, hex(value), wanted);
  for (const value of [-1, -1n, 1.5, NaN, Infinity, 2 ** 53, {}, true, Symbol.iterator, "0xgg", "0x1g", new Date(), () => 1, "0x\u0661"]) {
    check(`no encoding: ${String(value)}`, thrown(rlp.encode, [value]), "TypeError");
  }
  for (const value of ["cat", 5, null, undefined, [], "0xabc", "0xzz"]) {
    for (const name of ["tree", "isCanonical", "flatten", "header", "transaction", "headerFields"]) check(`no bytes: ${name} ${value}`, thrown(rlp[name], value), "TypeError");
  }
  testDecode();
  for (const maxDepth of [-1, 1.5, "9", NaN]) check(`depth ${maxDepth}`, thrown(rlp.decode, "0x80", { maxDepth }), "RangeError");
  const round = [];
  round.push(round);
  check("a list in itself", thrown(rlp.encode, round), "RlpTooDeep");
  let nested = [];
  for (let depth = 1; depth < 256; depth++) nested = [nested];
  check("256 lists", rlp.decode(rlp.encode(nested)), nested);
  check("257 lists", thrown(rlp.encode, [nested]), "RlpTooDeep");
  check("header", rlp.header("0xc88363617483646f67ff"), { offset: 0, headerLength: 1, payloadLength: 8, depth: 0, isList: true });
  check("header refused", thrown(rlp.header, "0xb800"), "RlpDataLenWithZeroPrefix");
  const error = (() => {
    try {
      return rlp.transaction(`0xf861${"80".repeat(97)}`);
    } catch (caught) {
      return caught;
    }
  })();
  check("an error's parts", [error.name, error.status, error.field, error.fieldName, error.place, error instanceof Error], ["RlpIncorrectListLen", 5, 10, undefined, 11, true]);
  check("the embedded module", rlp.toHex(embedded.encode(["cat"])), "0xc483636174");
}

/** Long strings, of which the header alone is looked at, and bytes of Node's class. */
function testLongStrings() {
  for (const length of [56, 255, 256, 65_536, 1 << 20]) {
    const string = new Uint8Array(length).fill(length);
    const data = plain.encode(string);
    const value = rlp.decode(data);
    check(`a string of ${length} bytes`, [value, rlp.isCanonical(data)], [string, true]);
    check("one byte less", [thrown(rlp.decode, data.subarray(0, -1)), rlp.isCanonical(data.subarray(0, -1))], ["RlpIsTooShort", false]);
    const more = plain.joined([data, Uint8Array.of(1, 2)]);
    check("two bytes more", [thrown(rlp.decode, more), rlp.isCanonical(more), rlp.decode(more, true)], ["RlpIsTooBig", false, { data: string, remainder: Uint8Array.of(1, 2) }]);
    check("its header", rlp.header(more), { offset: 0, headerLength: data.length - length, payloadLength: length, depth: 0, isList: false });
    value.fill(1);
    check("it is a copy", data[data.length - 1], length & 255);
  }
  check("its depth", thrown(rlp.decode, plain.encode(new Uint8Array(60)), { maxDepth: -1 }), "RangeError");
  check("a needless length", thrown(rlp.decode, `0xb837${"00".repeat(55)}`), "RlpInvalidIndirection");
  const data = plain.encode(new Uint8Array(64 << 20));
  rlp.header(data);
  const began = process.cpuUsage();
  for (let count = 0; count < 100; count++) rlp.header(data);
  const { user, system } = process.cpuUsage(began);
  checkThat("a header of 64 MiB is read without copying them", user + system < 200_000);
  const given = Buffer.from("c28105ff", "hex").subarray(2);
  for (const found of [rlp.decode(given, true).remainder, rlp.decode(given, true).data]) check("no Buffer is given", found.constructor, Uint8Array);
  check("nor among fields", rlp.transaction(Buffer.from("c9808080808003800102", "hex")).fields.data.constructor, Uint8Array);
}

/** Memory: growth, rows that another call took, bytes that lie in the memory itself, and calls beyond count. */
async function testMemory() {
  const codec = await rlp.load(fs.readFileSync(path.join(folder, "src/rlp.wasm")));
  const first = codec.memorySize;
  const many = plain.encode(Array.from({ length: 300_000 }, () => Uint8Array.of(5)));
  const rows = codec.flatten(many);
  check("rows beyond the first memory", [rows.length, rows.offset(300_000), codec.memorySize > first], [300_001, 300_003, true]);
  const kept = rows.copy();
  checkThat("rows are views", rows.words.buffer === rows.bytes.buffer && rows.words.buffer.byteLength === codec.memorySize);
  const { bytes } = codec.flatten("0xc88363617483646f67");
  check("bytes that lie in the memory", codec.decode(bytes).map((each) => rlp.toHex(each)), ["0x636174", "0x646f67"]);
  check("rows that were taken", [rows.isCurrent, thrown(() => rows.offset(0)), kept.isCurrent, kept.offset(300_000), kept.bytes.length], [false, "Error", true, 300_003, many.length]);
  const view = codec.flatten("0xc88363617483646f67").bytes.subarray(1);
  check("strings that lie in the memory", rlp.toHex(codec.encode([view, [view.subarray(0, 2)]])), rlp.toHex(plain.encode([rlp.fromHex("0x8363617483646f67"), [rlp.fromHex("0x8363")]])));
  const large = new Uint8Array(30 << 20).fill(7);
  const { length } = codec.encode(codec.flatten(codec.encode(large)).bytes);
  check("growth under bytes that lie in the memory", length, large.length + 10);
  const fresh = await rlp.load(fs.readFileSync(path.join(folder, "src/rlp.wasm")));
  const inner = plain.encode(Array.from({ length: 100_000 }, () => Uint8Array.of(5)));
  const outer = fresh.flatten(plain.encode(inner));
  const { data: list, remainder } = fresh.decode(outer.bytes.subarray(outer.headerLength(0)), true);
  check("growth under bytes of a stream that lie in the memory", [list.length, remainder.length], [100_000, 0]);
  const wide = codec.encode(Array.from({ length: 1_000_000 }, (_, number) => number));
  check("a million numbers", codec.decode(wide).length, 1_000_000);
  check("bytes of a spoiled length", thrown(() => codec.decode(Uint8Array.of(0xfb, 0xff, 0xff, 0xff, 0xff))), "RlpIsTooShort");
  const data = rlp.fromHex("0xcc83646f6783676f6483636174");
  const turn = () => {
    codec.decode(data);
    codec.tree(data).at(1);
    codec.encode(["dog", ["god", 5]]);
    codec.isCanonical(data);
    codec.flatten(data);
    told(() => codec.decode("0xc2c18105"));
  };
  for (let count = 0; count < 20_000; count++) turn();
  globalThis.gc?.();
  const [size, heap] = [codec.memorySize, process.memoryUsage().heapUsed];
  for (let count = 0; count < 170_000; count++) turn();
  globalThis.gc?.();
  check("the memory after 10^6 calls more", codec.memorySize, size);
  checkThat("the heap after them", process.memoryUsage().heapUsed - heap < 2 ** 21);
}

const began = Date.now();
for (const test of [testVectors, testRecords, testNames, testValues, testTree, testSteps, testLongStrings, testRandom, testSpoiledRecords, testStatuses, testMemory]) {
  await test();
  console.log(`${test.name}: ${((Date.now() - began) / 1000).toFixed(1)} s`);
}
console.log(`${passed} passed, ${failed} failed`);
process.exit(failed || !passed ? 1 : 0);
