/** The functions over the module in the file beside this one. */
export * from "./codec.js";
import { readFile } from "node:fs/promises";
import { functionsOf, load } from "./codec.js";

export const { encode, encodeInSteps, decode, isCanonical, flatten, tree, inspect, inspectInSteps, header, transaction, headerFields } = functionsOf(
  await load(readFile(new URL("rlp.wasm", import.meta.url))),
);
export const RLP = { encode, decode };
