// The thread that runs the program. It waits for commands inside of the program's read: by a promise, or in a mailbox of shared memory.
import { Receiver } from "./mailbox.js";
import { programOf, suspendingProgramOf } from "./program.js";

const isNode = typeof process === "object" && process.versions?.node !== undefined;
const port = isNode ? (await import("node:worker_threads")).parentPort : self;
const listen = (hear) => (isNode ? port.on("message", hear) : (port.onmessage = ({ data }) => hear(data)));

/** Bytes that were told, and whoever waits for them. */
class Inbox {
  #pieces = [];
  #wake = () => {};

  add(bytes) {
    this.#pieces.push(bytes);
    this.#wake();
  }

  async read(most) {
    while (!this.#pieces.length) await new Promise((wake) => (this.#wake = wake));
    const piece = this.#pieces[0].subarray(0, most);
    this.#pieces[0] = this.#pieces[0].subarray(piece.length);
    if (!this.#pieces[0].length) this.#pieces.shift();
    return piece;
  }
}

const inbox = new Inbox();

function write(from, descriptor) {
  if (descriptor === 1) port.postMessage({ replies: from.slice() });
  return from.length;
}

async function run(module, words, shared) {
  try {
    const receiver = shared && new Receiver(shared, () => port.postMessage({ emptied: true }));
    const program = shared
      ? programOf(module, (to) => receiver.read(to), write, words)
      : suspendingProgramOf(module, (most) => inbox.read(most), write, words);
    port.postMessage({ status: await program() });
  } catch (error) {
    port.postMessage({ fault: String(error) });
  }
}

listen(({ module, words, shared, commands }) => (module ? run(module, words, shared) : inbox.add(commands)));
