// page.js PAGE PACKAGE [PICTURES]: tests inspector.html and the package in Chromium, and puts pictures into a folder.
// It ends with `N passed, M failed`.
import fs from "node:fs";
import { createServer } from "node:http";
import path from "node:path";
import { fileURLToPath, pathToFileURL } from "node:url";
import { ask, attach, awaited, call, check, close, complaints, folder, goTo, key, longestTask, over, picture, requests, scheme, see, seeText, send, size, state, textOf } from "./browser.js";

// The most milliseconds of a processor that a task of the page takes, for any input of 170 KB and while it is scrolled.
const MOST_BUSY = 50;
const LOADED = `!["", "Loading the module.", undefined].includes(document.getElementById("verdict")?.textContent)`;

const here = path.dirname(fileURLToPath(import.meta.url));
const [page, packaged, pictures] = process.argv.slice(2);

/** Forgets what was told of the last input, so that the next is awaited. */
const forget = () => ask(`document.getElementById("verdict").textContent = document.getElementById("json-fault").textContent = ""`);

/** What is told of the input: the verdict, which comes last, or the fault of a JSON. */
async function told() {
  const texts = () => ask(`["verdict", "json-fault"].map((id) => document.getElementById(id).textContent)`);
  return (await awaited(texts, (found) => found.some((text) => text !== ""))).join("");
}

/** Gives text to a box. Answers what is told of it. */
async function give(id, text) {
  await forget();
  await call((box, given) => {
    document.getElementById(box).value = given;
    document.getElementById(box).dispatchEvent(new Event("input", { bubbles: true }));
  }, id, text);
  return told();
}

/** Chooses one of several. Answers what is told of it. */
async function choose(id, value) {
  await forget();
  await call((box, wanted) => {
    document.getElementById(box).value = wanted;
    document.getElementById(box).dispatchEvent(new Event("change"));
  }, id, value);
  return told();
}

/** Gives text to be pasted. */
const hold = (text) => ask(`window.given = new DataTransfer(), window.given.setData("text/plain", "${text}")`);

/** Pastes the text that was given into a box, in a task of its own. */
async function paste(box = "input") {
  await forget();
  await ask(`setTimeout(() => document.getElementById("${box}").dispatchEvent(new ClipboardEvent("paste", { clipboardData: window.given, cancelable: true }))), 0`);
}

const draw = (name) => pictures && picture(path.join(pictures, `${name}.png`));

const LEGACY = "f86780862d79883d2000825208945df9b87991262f6ba471f09758cde1c0fc1de734827a69801ca088ff6cf0fefd94db46111149ae4bfc179e9b94721fffd821d38d16464b3f71d0a045e0aff800961cfce805daef7016b9b675c137a6a41a548f7b60a3484c06a33a";
const TYPED = "02db0108843b9aca008504a817c800825208800600c080823333824444";
// The header of a block, which is among the examples.
let HEADER = "";
const fields = () => ask(`Object.fromEntries([...document.querySelectorAll("#record tbody tr")].map((row) => [row.cells[0].textContent, [...row.cells[1].children].map((each) => each.textContent)]))`);
const marked = () => ask(`[...document.querySelectorAll("#dump .wrong")].map((each) => Number(each.dataset.byte))`);
const digits = (bytes) => Buffer.from(bytes).toString("hex");

/** Does something, and checks that no task of the page was long. */
async function busyAtMost(name, work) {
  const { count, busy, long } = await longestTask(work);
  console.log(`page: ${name}: of ${count} tasks the longest took ${busy.toFixed(0)} ms of a processor and ${long.toFixed(0)} of a clock`);
  check(`${name}: tasks were seen`, count > 0, true);
  check(`${name}: the longest task, ${busy} ms of at most ${MOST_BUSY}`, busy <= MOST_BUSY, true);
}

/** Inputs of 170 KB, of several kinds. */
function large() {
  const list = (...parts) => {
    const payload = Buffer.concat(parts);
    const length = Buffer.from(payload.length.toString(16).padStart(6, "0").replace(/^(00)+/, ""), "hex");
    return Buffer.concat([payload.length < 56 ? Buffer.of(0xc0 + payload.length) : Buffer.concat([Buffer.of(0xf7 + length.length), length]), payload]);
  };
  const transactions = list(...Array(1640).fill(Buffer.from(LEGACY, "hex")));
  const nested = Array(250).fill(0).reduce((inner) => list(inner), list());
  return {
    transactions,
    "single bytes": list(Buffer.alloc(172_000, 5)),
    "a fault at the end": list(Buffer.alloc(171_998, 5), Buffer.of(0x81, 0x05)),
    "one long string": Buffer.concat([Buffer.of(0xba, 0x02, 0x9f, 0xe0), Buffer.alloc(172_000, "a")]),
    "deep nesting": list(...Array(Math.floor(172_000 / nested.length)).fill(nested)),
    "a block": list(Buffer.from(HEADER, "hex"), transactions, list()),
  };
}

/** Scrolls through both panes in jumps, one in each frame. */
async function scrollThrough() {
  for (let at = 0; at < 20; at++) {
    for (const box of ["dump", "tree"].map((id) => document.getElementById(id))) box.scrollTop = (box.scrollHeight * at) / 20;
    await new Promise(requestAnimationFrame);
  }
}

/** The texts that are seen whose contrast with what is behind them is below 4.5. */
function faint() {
  const paint = document.createElement("canvas").getContext("2d", { willReadFrequently: true });
  // The colours of the layers from the lowest to the highest, as one.
  const mixed = (colours) => {
    paint.clearRect(0, 0, 1, 1);
    for (const colour of colours) {
      paint.fillStyle = colour;
      paint.fillRect(0, 0, 1, 1);
    }
    return paint.getImageData(0, 0, 1, 1).data;
  };
  const light = (data) => [0.2126, 0.7152, 0.0722].reduce((sum, part, at) => sum + part * (data[at] <= 10 ? data[at] / 3294 : ((data[at] / 255 + 0.055) / 1.055) ** 2.4), 0);
  const behind = (node) => (node ? [...behind(node.parentElement), getComputedStyle(node).backgroundColor] : ["Canvas"]);
  const texts = [...document.querySelectorAll("body *")].filter((node) => node.checkVisibility() && [...node.childNodes].some((child) => child.nodeType === 3 && child.data.trim()));
  const pairs = texts.map((node) => [node, getComputedStyle(node).color]);
  for (const box of document.querySelectorAll("textarea")) pairs.push([box, getComputedStyle(box, "::placeholder").color], [box, getComputedStyle(box).color]);
  const contrast = ([node, colour]) => {
    const [low, high] = [light(mixed(behind(node))), light(mixed([...behind(node), colour]))].sort((one, other) => one - other);
    return (high + 0.05) / (low + 0.05);
  };
  return pairs.filter((pair) => contrast(pair) < 4.5).map((pair) => `${pair[0].className} “${pair[0].textContent.slice(0, 20)}” ${contrast(pair).toFixed(2)}`);
}

const cases = {
  async "the page loads and asks for nothing"() {
    check("verdict", await textOf("verdict"), "Paste bytes, or choose an example.");
    check("requests", requests.filter((url) => !url.startsWith("file:")), []);
    check("a request is refused", await ask(`fetch("https://example.org/").then(() => "sent", (error) => error.name)`), "TypeError");
    check("controls have names", await ask(`[...document.querySelectorAll("textarea, select, input, [tabindex]")].filter((each) => !each.getAttribute("aria-label") && !each.labels?.length).map((each) => each.id)`), []);
  },
  async "a legacy transaction"() {
    check("verdict", await give("input", LEGACY), /^Canonical: 105 bytes, a list of 9 items, 10 items in all, lists 1 deep\. A legacy transaction\.$/);
    const found = await fields();
    check("gasPrice", found.gasPrice, ["50000000000000", "0x2d79883d2000"]);
    check("to", found.to, ["0x5df9b87991262f6ba471f09758cde1c0fc1de734"]);
    check("fields", Object.keys(found), ["nonce", "gasPrice", "gasLimit", "to", "value", "data", "v", "r", "s"]);
    check("header bytes", await ask(`[...document.querySelectorAll("#dump .h")].map((each) => Number(each.dataset.byte))`), [0, 1, 2, 3, 10, 13, 34, 37, 39, 72]);
    check("nodes", await ask(`document.querySelectorAll("#tree .node").length`), 10);
    check("node", await ask(`document.getElementById("n2").textContent`), "gasPrice: string of 6 bytesat 3, 1 + 60x2d79883d2000");
  },
  async "a spoiled transaction"() {
    check("hint", await give("input", LEGACY.replace("825208", "820008")), /^Canonical.*As a transaction it has a fault: RlpInvalidIndirection: .* in field 3, gasLimit, at byte 10/);
    check("not marked", await marked(), []);
    check("verdict", await choose("kind", "transaction"), /^Canonical.*No transaction: RlpInvalidIndirection: .* in field 3, gasLimit, at byte 10/);
    check("marked", await marked(), [10]);
    await ask(`document.getElementById("kind").value = "guess"`);
  },
  async "a typed transaction"() {
    check("verdict", await give("input", `0x${TYPED}`), /^Canonical: 29 bytes.*An EIP-1559 transaction/);
    check("type byte", await ask(`document.getElementById("b0").className.includes("type")`), true);
    check("list", await ask(`document.getElementById("n0").textContent`), /^▾list of 12 itemsat 1, 1 \+ 27$/);
    check("JSON", JSON.parse(await ask(`document.getElementById("json").value`)).slice(0, 3), ["0x01", "0x08", "0x3b9aca00"]);
    check("verdict after a change", await give("json", await ask(`document.getElementById("json").value.replace("0x08", "0x09")`)), /1559/);
    check("bytes after it", await ask(`document.getElementById("input").value`), `0x${TYPED.replace("02db0108", "02db0109")}`);
  },
  async "a header"() {
    check("verdict", await choose("example", "header of block 1"), /A block header, as since Frontier/);
    const found = await fields();
    check("fields", Object.keys(found).length, 15);
    check("number, timestamp", [found.number, found.timestamp], [["1", "0x1"], ["1438269988", "0x55ba4224"]]);
  },
  async "signing bytes"() {
    const eip155 = "ec098504a817c800825208943535353535353535353535353535353535353535880de0b6b3a764000080018080";
    check("EIP-155", await give("input", eip155), /^Canonical: 45 bytes, .* An unsigned legacy transaction for chain 1: these are the bytes that are signed\.$/);
    check("an address as digits", await ask(`document.querySelector("#n4 .value").textContent`), `0x${"35".repeat(20)}`);
    check("value", (await fields()).value, ["1000000000000000000", "0xde0b6b3a7640000"]);
    check("six fields", await give("input", "e9098504a817c800825208943535353535353535353535353535353535353535880de0b6b3a764000080"), /An unsigned legacy transaction: these/);
    check("names", Object.keys(await fields()), ["nonce", "gasPrice", "gasLimit", "to", "value", "data"]);
    check("EIP-1559", await give("input", "02d40108843b9aca008504a817c800825208800600c0"), /An unsigned EIP-1559 transaction: these are the bytes that are signed\.$/);
    const found = await ask(`[...document.querySelectorAll("#record tbody tr")].map((row) => [row.cells[0].textContent, row.cells[2].textContent])`);
    check("names and places", found, [["chainId", "2"], ["nonce", "3"], ["maxPriorityFeePerGas", "4"], ["maxFeePerGas", "9"], ["gasLimit", "15"], ["to", "18"], ["value", "19"], ["data", "20"], ["accessList", "21"]]);
    check("a fault in a field", await give("input", "02d70108843b9aca008504a817c800820008800600c0800506"), /No transaction: RlpInvalidIndirection: .* in field 5, gasLimit/);
    check("too few fields, one with a fault", await give("input", "02d40108843b9aca008504a817c800820008800600c0"), /No transaction: RlpIncorrectListLen: .* in field 10, yParity/);
  },
  async "a node record"() {
    const text = "enr:-IS4QHCYrYZbAKWCBRlAy5zzaDZXJBGkcnh4MHcBFZntXNFrdvJjX04jRzjzCBOonrkTfj499SZuOh8R33Ls8RRcy5wBgmlkgnY0gmlwhH8AAAGJc2VjcDI1NmsxoQPKY0yuDUmstAHYpMa2_oxVtw0RW_QAdpzBQA8yWM0xOIN1ZHCCdl8";
    check("verdict", await give("input", text), /^Canonical: 134 bytes, a list of 10 items, .* A node record, by its shape\.$/);
    const found = await fields();
    check("names", Object.keys(found), ["signature", "seq", "id", "ip", "secp256k1", "udp"]);
    check("values", [found.seq, found.id, found.ip, found.udp], [["1", "0x1"], ["0x7634", "“v4”"], ["0x7f000001", "127.0.0.1"], ["30303", "0x765f"]]);
    check("key", found.secp256k1, ["0x03ca634cae0d49acb401d8a4c6b6fe8c55b70d115bf400769cc1400f3258cd3138"]);
    check("no base64", await give("input", "enr:-IS4*"), "The text behind “enr:” isn't base64 for addresses of the web.");
    check("keys out of order", await give("input", `f84bb840${"11".repeat(64)}018275640182696402`), /^Canonical: 77 bytes, a list of 6 items, 7 items in all, lists 1 deep\.$/);
    check("asked for", await choose("kind", "node record"), /No node record: it has a signature of 64 bytes, a number, and keys in order with their values\.$/);
    await ask(`document.getElementById("kind").value = "guess"`);
  },
  async "a block and receipts"() {
    await choose("example", "header of block 1");
    const header = await ask(`document.getElementById("input").value`);
    HEADER = header;
    const listOf = (...parts) => {
      const payload = Buffer.concat(parts.map((part) => Buffer.from(part, "hex")));
      return Buffer.concat([Buffer.of(0xf9, payload.length >> 8, payload.length & 255), payload]).toString("hex");
    };
    const block = listOf(header, listOf(...Array(3).fill(LEGACY)), "c0");
    check("block", await give("input", block), /^Canonical: 854 bytes, a list of 3 items, .* A block, by its shape\.$/);
    check("its parts", await fields(), { header: ["block 1, as since Frontier"], transactions: ["3 entries"], ommers: ["0 entries"] });
    check("names in it", await ask(`[...document.querySelectorAll("#tree .what:not(.kind)")].slice(0, 4).map((each) => each.textContent)`), ["list of 3 items", "header", "parentHash", "ommersHash"]);
    await ask(`document.getElementById("tree").scrollTop = 24 * 19`);
    await see("and in a transaction", `[...document.querySelectorAll("#tree .what:not(.kind)")].some((each) => each.textContent === "gasPrice")`, true);
    check("no block", await give("input", listOf(header, "c0")), /^Canonical: 536 bytes, a list of 2 items, 18 items in all, lists 2 deep\.$/);
    const log = `f83a94${"11".repeat(20)}e1a0${"22".repeat(32)}820102`;
    const receipt = listOf("01", "825208", `b90100${"00".repeat(256)}`, `f83c${log}`);
    check("receipt", await give("input", receipt), /^Canonical: 328 bytes, a list of 4 items, 10 items in all, lists 4 deep\. A receipt, by its shape\.$/);
    const found = await fields();
    check("its fields", [found.status, found.cumulativeGasUsed, found.logs], [["1", "0x1"], ["21000", "0x5208"], [`1 entry: [ [ "0x${"11".repeat(20)}", [ "0x${"22".repeat(32)}" ], "0x0102" ] ]`]]);
    check("names in a log", await ask(`["n6", "n7", "n9"].map((id) => document.querySelector("#" + id + " .what").textContent)`), ["address", "topics", "data"]);
    check("typed receipt", await give("input", `02${receipt}`), /^Canonical: 329 bytes, a list of 4 items, .* A receipt, by its shape\.$/);
  },
  async "a link"() {
    await give("input", TYPED);
    check("offered", await ask(`document.getElementById("link").disabled`), false);
    await ask(`document.getElementById("link").click()`);
    await seeText("told", "link-note", /behind its #, which is sent to nobody\.$/);
    check("the address", await ask("location.hash"), `#0x${TYPED}`);
    await give("input", "");
    check("not offered", await ask(`document.getElementById("link").disabled`), true);
    await ask(`location.hash = "0x${LEGACY}"`);
    await seeText("followed", "verdict", /A legacy transaction\.$/);
    await goTo(`${pathToFileURL(page).href}#${TYPED}`, LOADED);
    await seeText("read", "verdict", /An EIP-1559 transaction\.$/);
    check("opened", await ask(`document.getElementById("input").value`), TYPED);
    await ask(`location.hash = "<img src=x onerror=alert(1)>"`);
    await seeText("hostile", "verdict", "There is no hexadecimal digit at digit 1, but “<”.");
    await ask(`location.hash = "%zz"`);
    await seeText("a sign of percent", "verdict", "There is no hexadecimal digit at digit 1, but “%”.");
  },
  async "faults at their bytes"() {
    check("needless header", await give("input", "cd83646f6783676f648105c20102"), /^Not canonical. RlpInvalidIndirection: .*at byte 9\./);
    check("marked", await marked(), [9]);
    check("items before it", await ask(`document.querySelectorAll("#tree .node").length`), 4);
    check("a list in part", await ask(`document.querySelector("#n0 .what").textContent`), "list, 2 items read");
    check("not read", await ask(`[...document.querySelectorAll("#dump .rest")].map((each) => Number(each.dataset.byte))`), [10, 11, 12, 13]);
    check("needless length", await give("input", "c4b80105 05"), /RlpInvalidIndirection.*at byte 1/);
    check("marked", await marked(), [1]);
    check("behind it", await give("input", "83636174 00"), /RlpIsTooBig.*The item ends before byte 4/);
    check("marked", await marked(), [4]);
    check("short", await give("input", "c8836361748364"), /RlpIsTooShort.*at byte 0/);
    check("the tree tells it", await ask(`document.querySelector("#tree .broken").textContent`), "!RlpIsTooShort at byte 0");
    check("behind a type byte", await give("input", `02cd8105${"80".repeat(11)}`), /^Not canonical. RlpInvalidIndirection: .*, at byte 2\. No transaction: RlpInvalidIndirection: .* in field 1, chainId, at byte 2\.$/);
    check("marked", await marked(), [2]);
    check("digits", await give("input", "0x12g4"), /no hexadecimal digit at digit 3, but “g”/);
    check("half a byte", await give("input", "123"), /last byte has only one/);
  },
  async "all public vectors"() {
    const rows = fs.readFileSync(path.join(here, "../../vectors"), "utf8").split("\n").filter((line) => line && line[0] !== "#");
    let wrong = 0;
    for (const row of rows) {
      const [given, wanted] = row.split(" => ");
      if (given === "") continue;
      await call((kind) => (document.getElementById("kind").value = kind), "item");
      const verdict = await give("input", given);
      const [, name, place] = /^(Rlp\w+) at (\d+)$/.exec(wanted) ?? [];
      const holds = name ? verdict.includes(`${name}: `) && verdict.includes(`at byte ${place}.`) : verdict.startsWith("Canonical");
      if (!holds) console.log(row.slice(0, 99), verdict);
      wrong += !holds;
    }
    check("rows", wrong, 0);
    await call((kind) => (document.getElementById("kind").value = kind), "guess");
  },
  async "mouse"() {
    await give("input", LEGACY);
    await over("#b20");
    await see("item of a byte", `document.querySelector("#tree .on")?.id`, "n4");
    await seeText("in words", "place", "Byte 20, 0x2f: payload of a string of 20 bytes, to, at 13, header 1, payload 20.");
    await over("#n2 .what");
    await see("bytes of an item", `[...document.querySelectorAll("#dump .b.on")].map((each) => Number(each.dataset.byte))`, [3, 4, 5, 6, 7, 8, 9]);
    await over("#record tbody tr:nth-child(5)");
    await see("a field", `document.querySelector("#tree .on")?.id`, "n5");
  },
  async "keyboard"() {
    await give("input", LEGACY);
    await ask(`document.getElementById("dump").focus()`);
    for (let count = 0; count < 4; count++) await key("ArrowRight");
    await see("byte", `document.getElementById("dump").getAttribute("aria-activedescendant")`, "b4");
    await see("its item", `document.querySelector("#tree .on")?.id`, "n2");
    await key("Tab");
    await see("the tree is next", `document.activeElement.id`, "tree");
    await key("ArrowDown");
    await see("item", `document.getElementById("tree").getAttribute("aria-activedescendant")`, "n3");
    await key("ArrowLeft");
    await key("ArrowLeft");
    await see("closed", `[document.getElementById("n0").getAttribute("aria-expanded"), document.querySelectorAll("#tree .node").length]`, ["false", 1]);
    await key("ArrowRight");
    await see("open", `document.querySelectorAll("#tree .node").length`, 10);
    await key("Tab");
    await see("the fields are next", `document.activeElement.textContent`, "nonce");
  },
  async "hostile text"() {
    const hostile = `<img src=x onerror="alert(1)"><script>alert(2)</script>`;
    const bytes = Buffer.from(hostile);
    await give("input", digits([0xb8, 0, ...bytes]).replace(/^b800/, bytes.length > 55 ? `b8${bytes.length.toString(16)}` : (0x80 + bytes.length).toString(16)));
    check("as text", await ask(`document.querySelector("#tree .value").textContent`), `“${hostile.slice(0, 48)}”`);
    await give("json", JSON.stringify([hostile]));
    check("a fault in the JSON", await textOf("json-fault"), "At [0] is neither an array nor a string of 0x and pairs of hexadecimal digits.");
    await give("json", `${hostile}`);
    check("no JSON", await textOf("json-fault"), /^This is no JSON: /);
    await give("input", hostile);
    check("no digits", await textOf("verdict"), "There is no hexadecimal digit at digit 1, but “<”.");
    await give("json", `${"[".repeat(5000)}${"]".repeat(5000)}`);
    check("deep JSON", await textOf("json-fault"), /256 lists/);
    check("no elements", await ask(`document.querySelectorAll("img, #dump script, #tree script").length`), 0);
  },
  async "JSON back"() {
    check("verdict", await give("json", `["0x636174", ["0x646f67", "0x"], []]`), /^Canonical: 12 bytes/);
    check("bytes", await ask(`document.getElementById("input").value`), "0xcb83636174c583646f6780c0");
    check("dump", await ask(`[...document.querySelectorAll("#dump .b")].map((each) => each.textContent).join("")`), "cb83636174c583646f6780c0");
  },
  async "files"() {
    const binary = path.join(folder, "a<b>.bin");
    fs.writeFileSync(binary, Buffer.from("c88363617483646f67", "hex"));
    const { root } = await send("DOM.getDocument");
    const { nodeId } = await send("DOM.querySelector", { nodeId: root.nodeId, selector: "#file" });
    await send("DOM.setFileInputFiles", { nodeId, files: [binary] });
    await see("bytes", `["verdict", "input-note"].map((id) => document.getElementById(id).textContent)`, ["Canonical: 9 bytes, a list of 2 items, 3 items in all, lists 1 deep.", "The file “a<b>.bin”, read as bytes: 9 bytes."]);
    const text = path.join(folder, "b.txt");
    fs.writeFileSync(text, "0xc88363617483\n646f67\n");
    await send("DOM.setFileInputFiles", { nodeId, files: [text] });
    await seeText("digits", "input-note", "The file “b.txt”, read as hexadecimal digits: 9 bytes.");
    await call(() => {
      const dataTransfer = new DataTransfer();
      dataTransfer.items.add(new File([Uint8Array.of(0xc1, 0x80)], "dropped.rlp"));
      document.dispatchEvent(new DragEvent("drop", { dataTransfer, bubbles: true, cancelable: true }));
    });
    await seeText("dropped", "input-note", "The file “dropped.rlp”, read as bytes: 2 bytes.");
    await call(() => {
      const dataTransfer = new DataTransfer();
      dataTransfer.items.add(new File([new Uint8Array(5 << 20)], "large.rlp"));
      document.dispatchEvent(new DragEvent("drop", { dataTransfer, bubbles: true, cancelable: true }));
    });
    await seeText("too large", "verdict", "There are 5,242,880 bytes. This page reads up to 4,194,304.");
  },
  async "170 KB"() {
    for (const [name, bytes] of Object.entries(large())) {
      await hold(digits(bytes));
      await busyAtMost(name, async () => {
        await paste();
        check(`${name}: verdict`, await told(), /^(Canonical|Not canonical)/);
        await call(scrollThrough);
      });
      const nodes = await ask(`document.querySelectorAll("*").length`);
      check(`${name}: few nodes, ${nodes}`, nodes < 3000, true);
    }
  },
  async "the JSON of 170 KB"() {
    const { transactions } = large();
    const strings = ["", "2d79883d2000", "5208", "5df9b87991262f6ba471f09758cde1c0fc1de734", "7a69", "", "1c", "88ff6cf0fefd94db46111149ae4bfc179e9b94721fffd821d38d16464b3f71d0", "45e0aff800961cfce805daef7016b9b675c137a6a41a548f7b60a3484c06a33a"];
    const json = JSON.stringify(Array(1640).fill(strings.map((each) => `0x${each}`)), null, 1);
    await hold(digits(transactions));
    await paste();
    await told();
    check("no JSON unasked", await ask(`[document.getElementById("json").value, document.getElementById("json-save").hidden]`), ["", false]);
    await send("Page.setDownloadBehavior", { behavior: "allow", downloadPath: folder });
    const saved = path.join(folder, "item.json");
    await busyAtMost("saved", async () => {
      await ask(`setTimeout(() => document.getElementById("json-save").click()), 0`);
      await awaited(() => fs.existsSync(saved) && fs.statSync(saved).size, (found) => found === json.length);
    });
    check("as it is written elsewhere", fs.readFileSync(saved, "utf8") === json, true);
    await hold(json.replaceAll("\n", " ").replaceAll('"', '\\"'));
    await busyAtMost("pasted JSON", async () => {
      await paste("json");
      check("the bytes back", await told(), /^Canonical: 172,204 bytes, a list of 1,640 items/);
    });
    check("with no text in a box", await ask(`["input", "json"].map((id) => document.getElementById(id).value)`), ["", ""]);
  },
  async "the last byte"() {
    await hold(digits(large()["single bytes"]));
    await paste();
    await told();
    await ask(`document.getElementById("dump").scrollTop = 1e9`);
    await see("is shown", `[...document.querySelectorAll("#dump .b")].at(-1).id`, "b172003");
    for (const [id, first, end] of [["dump", "b0", "b172003"], ["tree", "n0", "n172000"]]) {
      await ask(`document.getElementById("${id}").focus()`);
      for (const [name, wanted] of [["Home", first], ["End", end]]) {
        await key(name);
        await see(`${name} in the ${id}`, `document.getElementById("${id}").getAttribute("aria-activedescendant")`, wanted);
      }
    }
    await key("Home");
    await key("ArrowLeft");
    await see("the list closed", `[document.querySelectorAll("#tree .node").length, document.getElementById("tree").scrollTop]`, [1, 0]);
  },
  async "scrolled while it is read"() {
    await hold(digits(large()["single bytes"]));
    await paste();
    await call(async () => {
      for (let at = 0; document.getElementById("verdict").textContent === ""; at++) {
        for (const id of ["dump", "tree"]) document.getElementById(id).scrollTop = at % 2 ? 99_999 : 0;
        await new Promise((resolve) => setTimeout(resolve));
      }
      for (const id of ["dump", "tree"]) document.getElementById(id).scrollTop = 99_999;
    });
    // 99,999 pixels are 4,545 lines of 16 bytes, and 4,166 items.
    for (const [box, id] of [["dump", "b72720"], ["tree", "n4166"]]) await see(`the ${box}`, `document.querySelector("#${box} #${id}")?.id`, id);
    const nodes = await ask(`document.querySelectorAll("*").length`);
    check(`few nodes, ${nodes}`, nodes < 3000, true);
  },
  async "one input after the other"() {
    await hold(digits(large().transactions));
    await paste();
    for (const id of ["dump", "tree"]) await ask(`document.getElementById("${id}").scrollTop = 99`);
    check("the last one counts", await choose("example", "lists in lists"), /^Canonical: 13 bytes/);
    await ask("new Promise((resolve) => setTimeout(resolve, 300))");
    check("and stays", await textOf("verdict"), /^Canonical: 13 bytes/);
    check("its items", await ask(`document.querySelectorAll("#tree .node").length`), 7);
  },
  async "widths and schemes"() {
    await choose("example", "transaction of EIP-7702");
    for (const [width, wanted] of [[1280, 16], [390, 8]]) {
      await size(width);
      await see(`${width} px: bytes of a line`, `document.querySelector("#dump .line").querySelectorAll(".b").length`, wanted);
      check(`${width} px: no scrolling to the side`, await ask("document.scrollingElement.scrollWidth <= document.scrollingElement.clientWidth"), true);
      check(`${width} px: the dump fits`, await ask(`document.getElementById("dump").scrollWidth - document.getElementById("dump").clientWidth`), 0);
      for (const value of ["light", "dark"]) {
        await scheme(value);
        await see(value, "getComputedStyle(document.body).backgroundColor", value === "dark" ? "rgb(22, 24, 27)" : "rgb(255, 255, 255)");
        check(`${width} px, ${value}: contrast`, await call(faint), []);
        await draw(`${width}-${value}`);
      }
      await scheme("light");
    }
    await size(1280);
    await give("input", "cd83646f6783676f648105c20102");
    for (const value of ["light", "dark"]) {
      await scheme(value);
      check(`a fault, ${value}: contrast`, await call(faint), []);
      await draw(`1280-fault-${value}`);
    }
    await scheme("light");
  },
  async "the package in a browser"() {
    const types = { ".js": "text/javascript", ".wasm": "application/wasm" };
    const server = createServer((request, answer) => {
      const file = path.join(packaged, path.normalize(request.url));
      if (!file.endsWith(".html") && !fs.existsSync(file)) return void answer.writeHead(404).end();
      answer.writeHead(200, { "Content-Type": types[path.extname(file)] ?? "text/html" }).end(file.endsWith(".html") ? "<!doctype html><title>empty</title>" : fs.readFileSync(file));
    });
    await new Promise((resolve) => server.listen(0, "127.0.0.1", resolve));
    const before = requests.length;
    await goTo(`http://127.0.0.1:${server.address().port}/empty.html`, true);
    for (const name of ["browser", "embedded"]) {
      const found = await call(async (from) => {
        const { encode, decode, flatten, toHex, transaction } = await import(`/src/${from}.js`);
        const many = encode(Array.from({ length: 300_000 }, () => 5));
        let fault;
        try {
          decode("0xc28105");
        } catch (error) {
          fault = `${error.name} ${error.place}`;
        }
        const block = encode(Array(200).fill(Array.from({ length: 9 }, (_, at) => new Uint8Array(at % 2 ? 32 : 4).fill(7))));
        let least = [Infinity, Infinity];
        for (let run = 0; run < 9; run++) {
          least = [flatten, decode].map((each, at) => {
            const began = performance.now();
            for (let times = 0; times < 100; times++) each(block);
            return Math.min(least[at], ((performance.now() - began) / 100) * 1000);
          });
        }
        return [toHex(encode(["cat", [1000n]])), flatten(many).length, fault, least.map(Math.round)];
      }, name);
      console.log(`${name}.js, block of 2,001 items, microseconds of flatten and decode:`, JSON.stringify(found.pop()));
      check(name, found, ["0xc883636174c38203e8", 300_001, "RlpInvalidIndirection 1"]);
    }
    server.close();
    requests.length = before;
  },
  async "nothing went wrong"() {
    check("complaints", complaints, []);
    check("requests", requests.filter((url) => !url.startsWith("file:")).filter((url) => url !== "https://example.org/"), []);
  },
};

try {
  await attach();
  await size(1280);
  await goTo(pathToFileURL(page).href, LOADED);
  for (const [name, run] of Object.entries(cases)) {
    const { failed } = state;
    state.running = name;
    try {
      await run();
    } catch (error) {
      state.failed++;
      console.log(error.stack);
    }
    console.log(`page: ${name}: ${failed === state.failed ? "passed" : "FAILED"}`);
  }
} finally {
  await close();
}
console.log(`${state.passed} passed, ${state.failed} failed`);
process.exit(state.failed || !state.passed ? 1 : 0);
