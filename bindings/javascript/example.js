import { encode, RlpError, tree, toHex } from "rlp-proved";

const bytes = encode(["cat", 1000]);
for (const field of tree(bytes)) console.log(`"${toHex(field.bytes)}" at ${field.offset}`);
try {
  tree("0xc28105");
} catch (error) {
  if (error instanceof RlpError) console.log(error.name);
}
