// What the declarations have to allow and to refuse. It is compiled, not run.
import { decode, encode, encodeInSteps, flatten, headerFields, inspectInSteps, load, transaction, tree, RLP, RlpError, type Decoded, type Input, type Tree } from "../src/index.js";

const value: Input = ["cat", ["dog", ""], 1000, 5n, new Uint8Array(2), null];
const bytes: Uint8Array = encode(value);
const back: Decoded = decode(bytes, { maxDepth: 4 });
decode("0xc0");
decode(5n, false);
const { data, remainder } = decode(bytes, true);
const rest: Uint8Array = decode(remainder, { stream: true, maxDepth: 1 }).remainder;
const same: Decoded = RLP.decode(RLP.encode([1, "2"]));
// @ts-expect-error: a list is no byte string
decode(["c0"]);
// @ts-expect-error: text is digits behind 0x
flatten("c0");
// @ts-expect-error: without stream there is no remainder
decode(bytes, {}).remainder;
const item: Tree | undefined = tree(bytes).at(-1);
const strings: Uint8Array[] = Array.from(tree(bytes), (each) => each.bytes);
// @ts-expect-error: there may be no such item
item.bytes;
const written = encodeInSteps(value).next();
const whole: Uint8Array | number = written.value;
const steps = inspectInSteps(bytes).next();
if (steps.done) void steps.value.fault?.place;
// @ts-expect-error: a value with no encoding
encode({ a: 1 });
// @ts-expect-error: a truth value has none either
encode(true);

const rows = flatten(bytes);
const offsets: number[] = [...rows].map(({ offset }) => offset);
const found = transaction(bytes);
if (found.type === 4) {
  const nonce: bigint = found.fields.authorizationList[0].nonce;
  const to: Uint8Array = found.fields.to;
  void [nonce, to];
}
if (found.type === 0) {
  const price: bigint = found.fields.gasPrice;
  // @ts-expect-error: it may be null
  const to: Uint8Array = found.fields.to;
  void [price, to];
}
const fee: bigint | undefined = headerFields(bytes).fields.baseFeePerGas;
try {
  decode("0x8105");
} catch (error) {
  if (error instanceof RlpError && error.name === "RlpInvalidIndirection") {
    const place: number | undefined = error.place;
    void [place, error.status === 8, error.field];
  }
}
const codec = await load(fetch("rlp.wasm"));
const size: number = codec.memorySize;
void [back, offsets, fee, size, data, rest, same, strings];
