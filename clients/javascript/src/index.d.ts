/** A command was refused, or the connection has ended. The message is the reply, such as "ERR 20 UNKNOWN", or why it ended. */
export class ClientError extends Error {}

/** A user's connection. Replies come in the order of the commands, so the next command may be sent before a reply is there. */
export class Client {
  constructor(write: (bytes: Uint8Array) => void, close: () => void);
  /**
   * Sends a command, with its body if it has one: docs/PROTOCOL.md has all of them. Returns its reply, each line ended by "\n".
   *
   * @throws {ClientError} where it is refused, is no line of printing characters, or the connection has ended
   */
  send(command: string, body?: string): Promise<string>;
  /** Ends the connection. Commands without a reply are refused. */
  close(): void;
  /** Takes in bytes of replies, which may end anywhere. */
  hear(bytes: Uint8Array): void;
  /** Notes that no more replies come, and why. */
  lose(why: string): void;
}

export const Engine: {
  /**
   * Begins the program as WebAssembly, in a thread of its own, for one user of the usual quota without sessions. Where WebAssembly has
   * no promises (`WebAssembly.Suspending`), a page has to be isolated (headers COOP `same-origin` and COEP `require-corp`).
   *
   * @param module the compiled module, its address, or in Node the name of its file; `bin/compile wasm64` makes it, and `wasm32` one
   *     for what has no memory of 64 bits
   * @param options `arguments` are the words of the command line, such as ["run", "--atoms", "65536"], of a module of `ljserve` whole
   *     (`bin/compile wasm64 FOLDER --crate ljserve`); that of `lj_run` takes none
   */
  open(module: WebAssembly.Module | URL | string, options?: { arguments?: string[] }): Promise<Client>;
  /** As `open`, with the first of these modules that this machine takes, such as [wasm64, wasm32]. */
  openFirst(modules: (WebAssembly.Module | URL | string)[], options?: { arguments?: string[] }): Promise<Client>;
};

/** Where the modules of this package are, for `Engine.openFirst`. That of a release has them, and the folder of the repository has none. */
export const modules: URL[];

/** Runs a module over an input that is there whole: its exit status and the replies. */
export function answerAll(module: WebAssembly.Module, input: Uint8Array, words?: string[]): { status: number; output: Uint8Array };

/** The program of a module over two streams, which runs until its input ends, and returns its exit status. Words are as `arguments`. */
export function programOf(
  module: WebAssembly.Module,
  read: (to: Uint8Array) => number,
  write: (from: Uint8Array, descriptor: number) => number,
  words?: string[],
): () => number;

/** As `programOf`, where the program waits for its input without holding its thread up: `read` returns at most so many bytes. */
export function suspendingProgramOf(
  module: WebAssembly.Module,
  read: (most: number) => Promise<Uint8Array>,
  write: (from: Uint8Array, descriptor: number) => number,
  words?: string[],
): () => Promise<number>;
