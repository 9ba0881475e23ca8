// Bytes handed to a thread that waits for them inside of a call: one piece at a time in shared memory.

const EMPTY = 0, FULL = 1, ENDED = 2;
const STATE = 0, LENGTH = 1, HEAD = 8;

/** The shared memory of a mailbox, with room for so many bytes at a time. */
export const sharedMailbox = (room = 65536) => new SharedArrayBuffer(HEAD + room);

/** The side that sends. `emptied` has to be called when the other side has taken a piece. */
export class Sender {
  #words;
  #bytes;
  #waiting = [];
  #isEnded = false;

  constructor(shared) {
    this.#words = new Int32Array(shared, 0, 2);
    this.#bytes = new Uint8Array(shared, HEAD);
  }

  send(bytes) {
    for (let at = 0; at < bytes.length; at += this.#bytes.length) this.#waiting.push(bytes.slice(at, at + this.#bytes.length));
    this.#post();
  }

  end() {
    this.#isEnded = true;
    this.#post();
  }

  emptied() {
    this.#post();
  }

  #post() {
    if (Atomics.load(this.#words, STATE) !== EMPTY) return;
    const piece = this.#waiting.shift();
    if (piece) {
      this.#bytes.set(piece);
      this.#words[LENGTH] = piece.length;
      this.#note(FULL);
    } else if (this.#isEnded) {
      this.#note(ENDED);
    }
  }

  #note(state) {
    Atomics.store(this.#words, STATE, state);
    Atomics.notify(this.#words, STATE);
  }
}

/** The side that waits. `emptied` is called when it has taken a whole piece. */
export class Receiver {
  #words;
  #bytes;
  #emptied;
  #taken = 0;

  constructor(shared, emptied) {
    this.#words = new Int32Array(shared, 0, 2);
    this.#bytes = new Uint8Array(shared, HEAD);
    this.#emptied = emptied;
  }

  /** Waits for bytes, and puts the next ones at the start of `to`: how many, 0 at the end. */
  read(to) {
    Atomics.wait(this.#words, STATE, EMPTY);
    if (Atomics.load(this.#words, STATE) === ENDED) return 0;
    const count = Math.min(to.length, this.#words[LENGTH] - this.#taken);
    to.set(this.#bytes.subarray(this.#taken, this.#taken + count));
    this.#taken += count;
    if (this.#taken === this.#words[LENGTH]) {
      this.#taken = 0;
      Atomics.store(this.#words, STATE, EMPTY);
      this.#emptied();
    }
    return count;
  }
}
