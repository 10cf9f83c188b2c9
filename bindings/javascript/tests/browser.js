// Drives a page in Chromium, which CHROMIUM may name, and counts what holds. It speaks to the browser through a pipe, so it needs no package.
import { spawn } from "node:child_process";
import fs from "node:fs";
import os from "node:os";
import path from "node:path";

// A busy machine shows everything late. What isn't there after so many milliseconds doesn't come.
const LATEST = 20_000;
const MOST_SECONDS = 900;

export const folder = fs.mkdtempSync(path.join(os.tmpdir(), "page-"));
/** The addresses that were asked for, and what went wrong in the page. */
export const requests = [];
export const complaints = [];
/** What is done, and how many checks passed and failed. */
export const state = { running: "the start", passed: 0, failed: 0 };

const flags = ["--headless=new", "--remote-debugging-pipe", `--user-data-dir=${folder}`, "--no-first-run", "--disable-gpu", "--hide-scrollbars", "--disable-background-networking", "--disable-component-update", "--disable-dev-shm-usage", "--no-sandbox"];
const browser = spawn(process.env.CHROMIUM ?? "chromium", [...flags, "about:blank"], { stdio: ["ignore", "ignore", "ignore", "pipe", "pipe"] });
const waiting = new Map();
let last = 0;
let rest = "";
let session;
let traced = [];
let traceEnds;

setTimeout(() => {
  console.log(`The browser has no answer in ${state.running}.`);
  browser.kill();
  process.exit(1);
}, MOST_SECONDS * 1000).unref();

const heard = {
  "Network.requestWillBeSent": ({ request }) => requests.push(request.url),
  "Runtime.exceptionThrown": ({ exceptionDetails }) => complaints.push(exceptionDetails.exception?.description ?? exceptionDetails.text),
  "Page.javascriptDialogOpening": () => complaints.push("a dialog"),
  "Tracing.dataCollected": ({ value }) => traced.push(...value),
  "Tracing.tracingComplete": () => traceEnds(),
};

browser.stdio[4].on("data", (data) => {
  const messages = (rest + data).split("\0");
  rest = messages.pop();
  for (const { id, error, result, method, params } of messages.map((text) => JSON.parse(text))) {
    if (!id) heard[method]?.(params);
    else {
      const { resolve, reject } = waiting.get(id);
      waiting.delete(id);
      error ? reject(new Error(error.message)) : resolve(result);
    }
  }
});

export function send(method, params = {}) {
  const id = ++last;
  browser.stdio[3].write(`${JSON.stringify({ id, method, params, ...(session && { sessionId: session }) })}\0`);
  return new Promise((resolve, reject) => waiting.set(id, { resolve, reject }));
}

export async function ask(expression) {
  const { result, exceptionDetails } = await send("Runtime.evaluate", { expression, awaitPromise: true, returnByValue: true });
  if (exceptionDetails) throw new Error(exceptionDetails.exception?.description ?? exceptionDetails.text);
  return result.value;
}

export const call = (body, ...given) => ask(`(${body})(${given.map((each) => JSON.stringify(each)).join(", ")})`);
export const textOf = (id) => ask(`document.getElementById("${id}").textContent`);

/** Attaches to the browser's page. */
export async function attach() {
  const { targetInfos } = await send("Target.getTargets");
  const { targetId } = targetInfos.find(({ type }) => type === "page");
  ({ sessionId: session } = await send("Target.attachToTarget", { targetId, flatten: true }));
  for (const domain of ["Page", "Runtime", "Network", "DOM"]) await send(`${domain}.enable`);
}

export async function close() {
  session = undefined;
  const ended = new Promise((resolve) => browser.once("exit", resolve));
  await send("Browser.close").catch(() => {});
  await ended;
  fs.rmSync(folder, { recursive: true, force: true, maxRetries: 9 });
}

const same = (found, wanted) => (wanted instanceof RegExp ? wanted.test(found) : JSON.stringify(found) === JSON.stringify(wanted));

export function check(name, found, wanted) {
  if (same(found, wanted)) return void state.passed++;
  state.failed++;
  console.log(`${state.running}: ${name}: found ${JSON.stringify(found)}, wanted ${wanted instanceof RegExp ? wanted : JSON.stringify(wanted)}`);
}

/** What is found in the end: as soon as it holds, or after the latest time. */
export async function awaited(find, holds) {
  for (const until = Date.now() + LATEST; ; ) {
    const found = await find();
    if (holds(found) || Date.now() > until) return found;
    await new Promise((resolve) => setTimeout(resolve, 10));
  }
}

/** Waits until something is as wanted, and checks it. */
export async function see(name, expression, wanted) {
  check(name, await awaited(() => ask(expression), (found) => same(found, wanted)), wanted);
}

export const seeText = (name, id, wanted) => see(name, `document.getElementById("${id}").textContent`, wanted);

/** Goes to an address, and waits until something holds in its page. */
export async function goTo(url, isThere) {
  for (const [address, holds] of [["about:blank", `location.href === "about:blank"`], [url, `location.href !== "about:blank" && document.readyState === "complete" && ${isThere}`]]) {
    await send("Page.navigate", { url: address });
    // Between two pages there is none to be asked.
    await awaited(() => ask(holds).catch(() => false), (found) => found === true);
  }
}

export async function key(name) {
  for (const type of ["keyDown", "keyUp"]) await send("Input.dispatchKeyEvent", { type, key: name, code: name, ...(name === "Tab" && { windowsVirtualKeyCode: 9 }) });
}

/** Moves the mouse to an element. */
export async function over(selector) {
  const at = await call((wanted) => {
    const found = document.querySelector(wanted);
    found.scrollIntoView({ block: "center" });
    const { x, y, width, height } = found.getBoundingClientRect();
    return { x: x + Math.min(width / 2, 60), y: y + height / 2 };
  }, selector);
  await send("Input.dispatchMouseEvent", { type: "mouseMoved", ...at });
}

export const size = (width, height = 900) => send("Emulation.setDeviceMetricsOverride", { width, height, deviceScaleFactor: 1, mobile: false });
export const scheme = (value) => send("Emulation.setEmulatedMedia", { features: [{ name: "prefers-color-scheme", value }] });

export async function picture(file) {
  await ask("scrollTo(0, 0)");
  const { cssContentSize } = await send("Page.getLayoutMetrics");
  const clip = { x: 0, y: 0, width: await ask("innerWidth"), height: Math.min(cssContentSize.height, 3000), scale: 1 };
  const { data } = await send("Page.captureScreenshot", { format: "png", clip, captureBeyondViewport: true });
  fs.mkdirSync(path.dirname(file), { recursive: true });
  fs.writeFileSync(file, Buffer.from(data, "base64"));
}

/**
 * Does something, and answers how long the longest task of the page's main thread took meanwhile, in milliseconds: of a processor, which
 * other programs don't make longer, and of a clock.
 */
export async function longestTask(work) {
  traced = [];
  await send("Tracing.start", { transferMode: "ReportEvents", traceConfig: { includedCategories: ["toplevel"] } });
  await work();
  const ended = new Promise((resolve) => (traceEnds = resolve));
  await send("Tracing.end");
  await ended;
  const threads = traced.filter(({ name, args }) => name === "thread_name" && args.name === "CrRendererMain").map(({ pid, tid }) => `${pid} ${tid}`);
  const tasks = traced.filter(({ name, ph, pid, tid }) => ph === "X" && name.endsWith("RunTask") && threads.includes(`${pid} ${tid}`));
  const most = (value) => tasks.reduce((longest, task) => Math.max(longest, value(task) / 1000), 0);
  return { count: tasks.length, busy: most(({ tdur, dur }) => tdur ?? dur), long: most(({ dur }) => dur) };
}
