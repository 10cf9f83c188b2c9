/** The functions over the module as text, for where nothing is to be fetched. */
export * from "./codec.js";
import module from "./module.js";
import { fromBase64, functionsOf, load } from "./codec.js";

export const { encode, encodeInSteps, decode, isCanonical, flatten, tree, inspect, inspectInSteps, header, transaction, headerFields } = functionsOf(
  await load(fromBase64(module)),
);
export const RLP = { encode, decode };
