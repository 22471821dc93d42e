// Long work in short turns, so that the page stays awake: a progress bar, and it can be stopped.

const TURN = 24; // milliseconds

export class Stopped extends Error {}

/** The next turn of the browser. */
function turn() {
  return new Promise((resolve) => {
    const channel = new MessageChannel();
    channel.port1.onmessage = () => {
      channel.port1.close();
      resolve(null);
    };
    channel.port2.postMessage(null);
  });
}

/**
 * Does the work of a generator that yields how far it is, 0 to 1. Stopped is thrown where the signal says so.
 * @param {Generator<number, void>} work
 * @param {AbortSignal} signal
 * @param {(done: number) => void} told
 */
export async function inTurns(work, signal, told) {
  for (;;) {
    const end = performance.now() + TURN;
    let step = work.next();
    while (!step.done && performance.now() < end) step = work.next();
    if (step.done) return;
    told(step.value);
    await turn();
    if (signal.aborted) {
      work.return();
      throw new Stopped();
    }
  }
}
