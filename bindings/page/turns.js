// Long work in turns, between which the page answers.

// How long a turn lasts, in milliseconds, up to the end of the step that it is in. Each step is short.
const TURN = 6;
// What a step yields after which a frame is to be drawn, and how many milliseconds it waits for that where none is drawn.
const FRAME = Symbol("frame");
const LONGEST_FRAME = 100;

/** Gives others a turn. */
const others = () => new Promise((resolve) => setTimeout(resolve));

/** Waits until a frame is drawn. */
function drawn() {
  return new Promise((resolve) => {
    requestAnimationFrame(() => setTimeout(resolve));
    setTimeout(resolve, LONGEST_FRAME);
  });
}

/** What an iterator returns in the end, or null if it isn't wanted any more. Its steps are done in turns. */
async function inTurns(steps, isWanted) {
  for (;;) {
    const ends = performance.now() + TURN;
    let step = steps.next();
    while (!step.done && step.value !== FRAME && performance.now() < ends) step = steps.next();
    if (step.done) return step.value;
    await (step.value === FRAME ? drawn() : others());
    if (!isWanted()) return null;
  }
}

// Boxes of lines that wait to be drawn. One is drawn in each frame, so that no frame has the work of two.
const undrawn = new Set();
let isAwaited = false;

function awaitFrame() {
  if (!isAwaited) requestAnimationFrame(drawNext);
  isAwaited = true;
}

function drawNext() {
  isAwaited = false;
  const [box] = undrawn;
  undrawn.delete(box);
  box.show();
  if (undrawn.size > 0) awaitFrame();
}

function drawSoon(box) {
  undrawn.add(box);
  awaitFrame();
}
