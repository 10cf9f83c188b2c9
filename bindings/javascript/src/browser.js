/** The functions over the module that is fetched from beside this one. */
export * from "./codec.js";
import { functionsOf, load } from "./codec.js";

export const { encode, encodeInSteps, decode, isCanonical, flatten, tree, inspect, inspectInSteps, header, transaction, headerFields } = functionsOf(
  await load(fetch(new URL("rlp.wasm", import.meta.url))),
);
export const RLP = { encode, decode };
