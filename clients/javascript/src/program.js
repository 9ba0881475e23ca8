// Begins a module of the program, which bin/compile makes, over any two streams.

/** The module's memory as bytes. It may have grown and moved since the last call. */
const part = (memory, at, count) => new Uint8Array(memory.buffer, Number(at), Number(count));

/** The program has ended itself with a status. */
class Ended extends Error {
  constructor(status) {
    super(`the program has ended with status ${status}`);
    this.status = status;
  }
}

/** The status of an end by a throw. Throws what is none. */
function statusOf(error) {
  if (error instanceof Ended) return error.status;
  throw error;
}

/** What a module of `ljserve` calls for the words of its command line, and for its end. That of `lj_run` has no words. */
function wordsAndEnd(words, memory) {
  const all = ["ljserve", ...words].map((word) => new TextEncoder().encode(word));
  return {
    word(number, to, room) {
      const word = all[Number(number)];
      if (!word) return -1n;
      const fits = word.subarray(0, Number(room));
      part(memory(), to, fits.length).set(fits);
      return BigInt(word.length);
    },
    exit(status) {
      throw new Ended(status);
    },
  };
}

/**
 * Makes an instance of a module.
 *
 * @param {WebAssembly.Module} module
 * @param {(to: Uint8Array) => number} read puts the next bytes of the input at the start of `to`: how many, 0 at its end; throws where
 *     it cannot be read
 * @param {(from: Uint8Array, descriptor: number) => number} write takes bytes of standard output (1) or of standard error (2): how many
 * @param {string[]} words those of the command line, of a module of `ljserve`
 * @returns {() => number} the program, which runs until its input ends, and returns its exit status
 */
export function programOf(module, read, write, words = []) {
  let memory;
  const counted = (call) => {
    try {
      return BigInt(call());
    } catch {
      return -1n;
    }
  };
  const host = {
    read: (to, most) => counted(() => read(part(memory, to, most))),
    write: (descriptor, from, count) => counted(() => write(part(memory, from, count), descriptor)),
    ...wordsAndEnd(words, () => memory),
  };
  const { exports } = new WebAssembly.Instance(module, { host });
  memory = exports.memory;
  return () => {
    try {
      return exports.lj_main();
    } catch (error) {
      return statusOf(error);
    }
  };
}

/**
 * As `programOf`, where the program waits for its input without holding its thread up (JavaScript's promise integration).
 *
 * @param {WebAssembly.Module} module
 * @param {(most: number) => Promise<Uint8Array>} read the next bytes of the input, at most so many; none at its end
 * @param {(from: Uint8Array, descriptor: number) => number} write as there
 * @param {string[]} words as there
 * @returns {() => Promise<number>}
 */
export function suspendingProgramOf(module, read, write, words = []) {
  let memory;
  const host = {
    read: new WebAssembly.Suspending(async (to, most) => {
      const bytes = await read(Number(most));
      part(memory, to, bytes.length).set(bytes);
      return BigInt(bytes.length);
    }),
    write: (descriptor, from, count) => BigInt(write(part(memory, from, count), descriptor)),
    ...wordsAndEnd(words, () => memory),
  };
  const { exports } = new WebAssembly.Instance(module, { host });
  memory = exports.memory;
  const program = WebAssembly.promising(exports.lj_main);
  return () => program().catch(statusOf);
}

/**
 * Runs a module over an input that is there whole.
 *
 * @param {WebAssembly.Module} module
 * @param {Uint8Array} input the commands
 * @param {string[]} words those of the command line, of a module of `ljserve`
 * @returns {{status: number, output: Uint8Array}} the exit status and the replies
 */
export function answerAll(module, input, words = []) {
  const pieces = [];
  let left = input;
  const read = (to) => {
    const piece = left.subarray(0, to.length);
    to.set(piece);
    left = left.subarray(piece.length);
    return piece.length;
  };
  const write = (from, descriptor) => {
    if (descriptor === 1) pieces.push(from.slice());
    return from.length;
  };
  const status = programOf(module, read, write, words)();
  const output = new Uint8Array(pieces.reduce((sum, piece) => sum + piece.length, 0));
  let at = 0;
  for (const piece of pieces) {
    output.set(piece, at);
    at += piece.length;
  }
  return { status, output };
}
