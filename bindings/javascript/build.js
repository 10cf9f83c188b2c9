#!/usr/bin/env node
// build.js MODULE FOLDER: makes the package for JavaScript and the page of the module, in a folder. It gets
//   javascript/, which is the package, with the module as a file and as text
//   inspector.html, which holds all that it needs
import { createHash } from "node:crypto";
import fs from "node:fs";
import path from "node:path";
import { fileURLToPath } from "node:url";

const here = path.dirname(fileURLToPath(import.meta.url));
const [module, to] = process.argv.slice(2);
if (!to) throw new Error("usage: bindings/javascript/build.js MODULE FOLDER");

// What the page's script is made of, in this order.
const CODEC = ["values.js", "faults.js", "records.js", "rows.js", "codec.js"];
const PAGE = ["turns.js", "lines.js", "records.js", "view.js", "panes.js", "json.js", "page.js"];

const wasm = fs.readFileSync(module);
const base64 = wasm.toString("base64");

function makePackage(folder) {
  fs.rmSync(folder, { recursive: true, force: true });
  fs.mkdirSync(folder, { recursive: true });
  for (const name of ["package.json", "README.md", "src"]) fs.cpSync(path.join(here, name), path.join(folder, name), { recursive: true });
  fs.writeFileSync(path.join(folder, "src/rlp.wasm"), wasm);
  fs.writeFileSync(path.join(folder, "src/module.js"), `export default "${base64}";\n`);
}

/** The codec and the page as one script, so what one imports from the other is there already. */
function scriptOf() {
  const parts = [...CODEC.map((name) => path.join(here, "src", name)), ...PAGE.map((name) => path.join(here, "../page", name))];
  const text = parts.map((file) => fs.readFileSync(file, "utf8").replace(/^(?:import|export) \{.*\n/gm, "").replace(/^export /gm, ""));
  const script = `\nconst MODULE = "${base64}";\n${text.join("\n")}`;
  if (script.includes("</script")) throw new Error("the script would end the page's element");
  return script;
}

function pageOf() {
  const source = (name) => fs.readFileSync(path.join(here, "../page", name), "utf8");
  const script = scriptOf();
  const style = `\n${source("page.css")}`;
  const hash = (text) => `'sha256-${createHash("sha256").update(text).digest("base64")}'`;
  // The policy lets the page run this script, use this style and compile the module. It can't ask for anything.
  const policy = `default-src 'none'; script-src ${hash(script)} 'wasm-unsafe-eval'; style-src ${hash(style)}; base-uri 'none'; form-action 'none'`;
  const parts = { POLICY: policy, STYLE: style, SCRIPT: script };
  return source("inspector.html").replace(/@(POLICY|STYLE|SCRIPT)@/g, (_, name) => parts[name]);
}

makePackage(path.join(to, "javascript"));
const page = pageOf();
fs.writeFileSync(path.join(to, "inspector.html"), page);
console.log(`bindings: the module has ${wasm.length} bytes, inspector.html ${page.length}`);
