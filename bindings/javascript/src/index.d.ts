import type { Codec } from "./codec.js";

export * from "./codec.js";
export const encode: Codec["encode"];
export const encodeInSteps: Codec["encodeInSteps"];
export const decode: Codec["decode"];
export const isCanonical: Codec["isCanonical"];
export const flatten: Codec["flatten"];
export const tree: Codec["tree"];
export const inspect: Codec["inspect"];
export const inspectInSteps: Codec["inspectInSteps"];
export const header: Codec["header"];
export const transaction: Codec["transaction"];
export const headerFields: Codec["headerFields"];
/** The two functions under the name that `@ethereumjs/rlp` has for them. */
export const RLP: { encode: typeof encode; decode: typeof decode };
