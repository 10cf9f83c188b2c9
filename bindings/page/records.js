// What records the bytes are.

/** The transaction that some bytes are, or that they are the signing bytes of: then it is one with an empty signature. */
function transactionOf(bytes) {
  try {
    return codec.transaction(bytes);
  } catch (error) {
    if (!(error instanceof RlpError)) throw error;
    const { status, field } = error;
    const isShort = status === MISSING_FIELD && field === FIRST_OF_SIGNATURE[bytes[0] < 0xc0 ? bytes[0] : 0];
    const isEip155 = status === INVALID_SIGNATURE && field === 8 && bytes[0] >= 0xc0;
    if (!isShort && !isEip155) throw error;
    return unsignedOf(bytes, isEip155, error);
  }
}

/**
 * The transaction of signing bytes, which lack the three fields of the signature, or have the number of the chain in the
 * place of the first and nothing in the places of the others. Otherwise it throws the error.
 */
function unsignedOf(bytes, isEip155, error) {
  const start = bytes[0] < 0xc0 ? 1 : 0;
  const part = bytes.subarray(start);
  if (!codec.isCanonical(part)) throw error;
  const rows = [...codec.tree(part)];
  const isEmpty = ({ isList, payloadLength }) => !isList && payloadLength === 0;
  if (isEip155 && (isEmpty(rows[6]) || !rows.slice(7).every(isEmpty))) throw error;
  const values = [...codec.decode(part)];
  const signed = codec.encode([...(isEip155 ? values.slice(0, 7) : [...values, ""]), "0x01", "0x01"]);
  const whole = new Uint8Array(start + signed.length);
  whole.set(bytes.subarray(0, start));
  whole.set(signed, start);
  let found;
  try {
    found = codec.transaction(whole);
  } catch {
    throw error;
  }
  const placed = ({ offset, headerLength, payloadLength }, at) => ({ ...found.items[at], offset: offset + start, headerLength, payloadLength });
  const items = rows.map(placed);
  const chain = isEip155 ? found.fields.v : undefined;
  return { ...found, fields: { ...found.fields, r: 0n, s: 0n }, isUnsigned: true, chain, items };
}

const NUMBERS_OF_NODES = ["seq", "tcp", "tcp6", "udp", "udp6"];

/** The node record that some bytes are, by its shape: a signature of 64 bytes, a number, and keys in order with values. */
function nodeRecordOf(bytes) {
  if (bytes.length > MOST_OF_NODE || bytes[0] < 0xc0 || !codec.isCanonical(bytes)) return null;
  const items = [...codec.tree(bytes)];
  const keys = items.filter((_, at) => at >= 2 && at % 2 === 0);
  const isNamed = keys.every((key) => !key.isList && key.payloadLength > 0 && printable(key.bytes));
  if (items.length < 2 || items.length % 2 || items[0].payloadLength !== 64 || items[0].isList || items[1].payloadLength > 8 || !isNamed) return null;
  const names = keys.map((key) => letters(key.bytes));
  if (names.some((name, at) => at > 0 && name <= names[at - 1])) return null;
  const all = [["signature", items[0]], ["seq", items[1]], ...names.map((name, at) => [name, items[3 + at * 2]])];
  const shown = all.map(([name, { offset, headerLength, payloadLength, isList }]) => ({
    name, offset, headerLength, payloadLength, kind: isList ? "list" : NUMBERS_OF_NODES.includes(name) ? "number" : name === "id" ? "text" : "bytes",
  }));
  const valueOf = (item, { name, kind }) => {
    if (kind === "list") return item.value();
    if (kind === "number") return item.payloadLength > 0 ? BigInt(toHex(item.bytes)) : 0n;
    return item.bytes;
  };
  return { what: "node record", items: shown, fields: Object.fromEntries(all.map(([name, item], at) => [name, valueOf(item, shown[at])])) };
}

/** What a call gives, or null where bytes are refused. */
function orNull(call) {
  try {
    return call();
  } catch (error) {
    if (!(error instanceof RlpError)) throw error;
    return null;
  }
}

const PARTS_OF_BLOCK = ["header", "transactions", "ommers", "withdrawals"];

/** The header that a list begins with, by its fields, or null. */
function firstHeaderOf(bytes) {
  return orNull(() => {
    const first = bytes.subarray(codec.header(bytes).headerLength);
    const { headerLength, payloadLength, isList } = codec.header(first);
    return isList ? codec.headerFields(first.subarray(0, headerLength + payloadLength)) : null;
  });
}

/** The block that some bytes are, by its shape: a header and lists of transactions, of ommers, and since Shanghai of withdrawals. */
function* blockOf(bytes) {
  const header = bytes[0] >= 0xc0 ? firstHeaderOf(bytes) : null;
  yield;
  const parts = header && orNull(() => [...codec.tree(bytes)]);
  yield;
  if (!parts || parts.length < 3 || parts.length > 4 || !parts.every(({ isList }) => isList)) return null;
  const names = new Map(header.items.map(({ name, offset }) => [parts[0].offset + offset, name]));
  for (const { isList, offset, headerLength, payloadLength } of [...parts[1]].slice(0, MOST_NAMED)) {
    const found = isList ? orNull(() => codec.transaction(bytes.subarray(offset, offset + headerLength + payloadLength))) : null;
    for (const { name, offset: inner } of found?.items ?? []) names.set(offset + inner, name);
    yield;
  }
  const told = ({ length }, at) => (at === 0 ? `block ${header.fields.number}, as since ${header.fork}` : counted(length, "entry", "entries"));
  const items = parts.map(({ offset, headerLength, payloadLength }, at) => ({ name: PARTS_OF_BLOCK[at], kind: "told", offset, headerLength, payloadLength }));
  return { what: "block", fork: header.fork, items, names, fields: Object.fromEntries(parts.map((part, at) => [PARTS_OF_BLOCK[at], told(part, at)])) };
}

const PARTS_OF_LOG = ["address", "topics", "data"];

/** The names of the parts of logs by their offsets, or null if one is no log, step by step. */
function* namesOfLogs(logs, start) {
  const names = new Map();
  for (const log of logs) {
    if (!log.isList || log.length !== 3) return null;
    for (const [at, name] of PARTS_OF_LOG.entries()) names.set(log.at(at).offset + start, name);
    yield;
  }
  return names;
}

/** The receipt that some bytes are, by its shape: a status or a root, gas, a bloom filter of 256 bytes, and logs. */
function* receiptOf(bytes) {
  const start = bytes[0] < 0x80 ? 1 : 0;
  const parts = bytes.length > start && bytes.length <= MOST_OF_RECEIPT && bytes[start] >= 0xc0 ? orNull(() => [...codec.tree(bytes.subarray(start))]) : null;
  yield;
  if (parts?.length !== 4 || parts[2].payloadLength !== 256 || parts[1].payloadLength > 8 || !parts[3].isList) return null;
  const [first, gas, bloom, logs] = parts;
  if ([first, gas, bloom].some(({ isList }) => isList) || (first.payloadLength > 1 && first.payloadLength !== 32)) return null;
  const inLogs = yield* namesOfLogs(logs, start);
  if (!inLogs) return null;
  const names = [first.payloadLength === 32 ? "stateRoot" : "status", "cumulativeGasUsed", "logsBloom", "logs"];
  const kinds = [first.payloadLength === 32 ? "bytes" : "number", "number", "bytes", "list"];
  const number = ({ bytes: digits }) => (digits.length > 0 ? BigInt(toHex(digits)) : 0n);
  const values = parts.map((part, at) => (kinds[at] === "number" ? number(part) : kinds[at] === "list" ? part : part.bytes));
  const items = parts.map(({ offset, headerLength, payloadLength }, at) => ({ name: names[at], kind: kinds[at], offset: offset + start, headerLength, payloadLength }));
  return { what: "receipt", items, names: inLogs, fields: Object.fromEntries(names.map((name, at) => [name, values[at]])) };
}
