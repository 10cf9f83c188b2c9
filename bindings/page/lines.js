import { fromBase64, load, RlpError, toHex, Tree } from "../javascript/src/codec.js";

// The page, of which turns.js, lines.js, records.js, view.js, panes.js, json.js and page.js are parts of one script. What it shows of the input is set as
// text, never as HTML.

const MOST_BYTES = 4 << 20;
const MOST_NODES = 1_000_000;
// Beyond so many characters a text isn't put in a box, and beyond so many bytes each part of the page is shown in a frame of its own.
const LARGE_TEXT = 1 << 16;
const LARGE = 1 << 13;
// The height of a line of the dump and of the tree, and the width of a byte.
const LINE = 22;
const NODE = 24;
const CELL = 24;
// How many lines are made above and below what is seen.
const SPARE = 3;
const NOTHING = -1;
// A node record has no more bytes than this, and a link carries no more.
const MOST_OF_NODE = 300;
const MOST_OF_LINK = 1 << 15;
// Of a block so many transactions have names for their fields, and a receipt has no more bytes than this.
const MOST_NAMED = 2000;
const MOST_OF_RECEIPT = 1 << 16;
// Statuses of the library.
const TOO_BIG = 1;
const MISSING_FIELD = 5;
const INVALID_SIGNATURE = 11;
const UNKNOWN_TYPE = 16;
// The number of the first field of a signature, by type.
const FIRST_OF_SIGNATURE = { 0: 7, 1: 9, 2: 10, 3: 12, 4: 11 };

const EXAMPLES = {
  "first transaction of the main network":
    "f86780862d79883d2000825208945df9b87991262f6ba471f09758cde1c0fc1de734827a69801ca088ff6cf0fefd94db46111149ae4bfc179e9b94721fffd821d38d16464b3f71d0a045e0aff800961cfce805daef7016b9b675c137a6a41a548f7b60a3484c06a33a",
  "transaction of EIP-1559": "02db0108843b9aca008504a817c800825208800600c080823333824444",
  "transaction of EIP-7702":
    "04f876010a843b9aca008509502f9000830111709435353535353535353535353535353535353535358083010203c0f841de809477777777777777777777777777777777777777770301827777828888e10194888888888888888888888888888888888888888882012c81ff82999982aaaa0182bbbb82cccc",
  "header of block 1":
    "f90211a0d4e56740f876aef8c010b86a40d5f56745a118d0906a34e69aec8c0db1cb8fa3a01dcc4de8dec75d7aab85b567b6ccd41ad312451b948a7413f0a142fd40d493479405a56e2d52c817161883f50c441c3228cfe54d9fa0d67e4d450343046425ae4271474353857ab860dbc0a1dde64b41b5cd3a532bf3a056e81f171bcc55a6ff8345e692c0f86e5b48e01b996cadc001622fb5e363b421a056e81f171bcc55a6ff8345e692c0f86e5b48e01b996cadc001622fb5e363b421b90100" +
    "00".repeat(256) +
    "8503ff80000001821388808455ba422499476574682f76312e302e302f6c696e75782f676f312e342e32a0969b900de27b6ac6a67742365dd65f55a0526c41fd18e1b16f1a1215c2e66f5988539bd4979fef1ec4",
  "unsigned transaction of EIP-155":
    "ec098504a817c800825208943535353535353535353535353535353535353535880de0b6b3a764000080018080",
  "node record of EIP-778":
    "enr:-IS4QHCYrYZbAKWCBRlAy5zzaDZXJBGkcnh4MHcBFZntXNFrdvJjX04jRzjzCBOonrkTfj499SZuOh8R33Ls8RRcy5wBgmlkgnY0gmlwhH8AAAGJc2VjcDI1NmsxoQPKY0yuDUmstAHYpMa2_oxVtw0RW_QAdpzBQA8yWM0xOIN1ZHCCdl8",
  "lists in lists": "cc83646f67c783676f64c2c180",
  "a needless header": "cd83646f6783676f648105c20102",
};

const the = (id) => document.getElementById(id);
const { format: numbered } = new Intl.NumberFormat("en-GB");
const counted = (number, word, words = `${word}s`) => `${numbered(number)} ${number === 1 ? word : words}`;

function element(name, className, text) {
  const made = document.createElement(name);
  if (className) made.className = className;
  if (text !== undefined) made.textContent = text;
  return made;
}

/** A long list of lines of one height, of which only those that are seen are in the document. */
class Lines {
  constructor(box, height, make) {
    this.box = box;
    this.height = height;
    this.make = make;
    this.spacer = box.querySelector(".spacer");
    this.window = box.querySelector(".window");
    this.top = this.room = this.count = this.first = this.last = this.draws = 0;
    box.addEventListener("scroll", () => {
      this.top = box.scrollTop;
      drawSoon(this);
    });
  }

  /** Learns how high the box is at most. */
  measure() {
    const { maxHeight, borderTopWidth, borderBottomWidth } = getComputedStyle(this.box);
    this.room = [borderTopWidth, borderBottomWidth].reduce((rest, width) => rest - parseFloat(width), parseFloat(maxHeight));
  }

  /** Takes other lines, of which none is made yet. */
  set(count) {
    this.draws++;
    this.count = count;
    this.first = this.last = 0;
    this.spacer.style.height = `${count * this.height}px`;
    this.window.replaceChildren();
  }

  /** Makes the lines that are seen, step by step, until others are wanted. Lines that were seen before stay in the document. */
  *draw() {
    const mine = ++this.draws;
    const { height, window, count } = this;
    const first = Math.max(0, Math.min(Math.floor(this.top / height), count) - SPARE);
    const last = Math.min(count, first + Math.ceil(this.room / height) + 2 * SPARE);
    const isElsewhere = first >= this.last || last <= this.first;
    if (isElsewhere) this.last = this.first = first;
    if (isElsewhere) window.replaceChildren();
    for (; this.first < first; this.first++) window.firstChild.remove();
    for (; this.last > last; this.last--) window.lastChild.remove();
    while (this.draws === mine && this.last < last) {
      window.append(this.make(this.last++));
      yield this.#place();
    }
    while (this.draws === mine && this.first > first) {
      window.prepend(this.make(--this.first));
      yield this.#place();
    }
    this.#place();
  }

  #place() {
    const place = `translateY(${this.first * this.height}px)`;
    if (this.window.style.transform !== place) this.window.style.transform = place;
  }

  /** Makes the lines that are seen, and what takes too long in the next frame. */
  show() {
    // While other bytes are read, nothing is known of the lines.
    if (!view) return;
    const ends = performance.now() + TURN / 2;
    const steps = this.draw();
    let { done } = steps.next();
    while (!done && performance.now() < ends) ({ done } = steps.next());
    if (!done) drawSoon(this);
    point();
  }

  /** Goes to a place from the top, in pixels. */
  go(top) {
    if (this.top === top) return;
    this.top = this.box.scrollTop = top;
  }

  /** Goes where a line is seen. */
  reveal(line) {
    const top = line * this.height;
    if (top < this.top) this.go(top);
    else if (top + this.height > this.top + this.room) this.go(top + this.height - this.room);
    this.show();
  }
}

let codec;
let view = null;
let active = NOTHING;
let cursor = 0;
let perLine = 16;
let hasText = true;
let waiting;
// How many inputs were given. What is read of an earlier one isn't wanted any more.
let turn = 0;
