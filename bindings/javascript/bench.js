// bench.js PACKAGE FILE: nanoseconds for one call over the bytes of a file, by the package and by plain JavaScript. It is not
// processor time, which the engine's other threads take too.
import fs from "node:fs";
import path from "node:path";
import { pathToFileURL } from "node:url";
import * as plain from "./tests/plain.js";

const RUNS = 15;
const SECONDS = 0.01;

const [folder, file] = process.argv.slice(2);
const rlp = await import(pathToFileURL(path.join(path.resolve(folder), "src/node.js")));

/** The time of some rounds, in nanoseconds. */
function run(call, value, rounds) {
  const start = process.hrtime.bigint();
  for (let round = 0; round < rounds; round++) call(value);
  return Number(process.hrtime.bigint() - start);
}

/** Prints the shortest time of some runs, each of enough rounds to be measured. */
function measure(name, call, value) {
  let rounds = 1;
  while (run(call, value, rounds) < SECONDS * 5e8) rounds *= 2;
  const times = Array.from({ length: RUNS }, () => run(call, value, rounds));
  console.log(name, (Math.min(...times) / rounds).toFixed(1));
}

const data = new Uint8Array(fs.readFileSync(file));
const value = rlp.decode(data);
measure("decode", rlp.decode, data);
measure("is_canonical", rlp.isCanonical, data);
measure("encode", rlp.encode, value);
measure("plain_decode", plain.decode, data);
measure("plain_encode", plain.encode, value);
measure("flatten", rlp.flatten, data);
measure("tree", rlp.tree, data);
