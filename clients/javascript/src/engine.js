// The program as WebAssembly, in a thread of its own.
import { Client, ClientError } from "./client.js";
import { Sender, sharedMailbox } from "./mailbox.js";

const isNode = typeof process === "object" && process.versions?.node !== undefined;

/** A thread, and what it tells: `hear` is given each message, and `lose` why it has ended. */
async function threadOf(hear, lose) {
  const file = new URL("./worker.js", import.meta.url);
  if (!isNode) {
    const worker = new Worker(file, { type: "module" });
    worker.onmessage = ({ data }) => hear(data);
    worker.onerror = ({ message }) => lose(message || "the thread of the program could not be loaded");
    return worker;
  }
  const { Worker: Thread } = await import("node:worker_threads");
  const thread = new Thread(file);
  thread.on("message", hear);
  thread.on("error", ({ message }) => lose(message));
  return thread;
}

/** The module at an address, in Node a file too. */
async function moduleAt(address) {
  if (isNode && (typeof address === "string" || address.protocol === "file:")) {
    const { readFile } = await import("node:fs/promises");
    return WebAssembly.compile(await readFile(address));
  }
  const answer = await fetch(address);
  if (!answer.ok) throw new ClientError(`the module at ${address} must be there, got ${answer.status}`);
  return WebAssembly.compile(await answer.arrayBuffer());
}

/** Whether a program can wait for its input by a promise. Else it waits in shared memory. */
const suspends = () => "Suspending" in WebAssembly;

export const Engine = {
  /** Begins the program for one user without sessions, and returns a client of it. A module of `ljserve` takes arguments. */
  async open(module, { arguments: words = [] } = {}) {
    if (!suspends() && typeof SharedArrayBuffer === "undefined") {
      throw new ClientError("this browser must have promises in WebAssembly, or the page headers COOP same-origin and COEP require-corp");
    }
    const compiled = module instanceof WebAssembly.Module ? module : await moduleAt(module);
    const shared = suspends() ? undefined : sharedMailbox();
    const sender = shared && new Sender(shared);
    const send = (bytes) => (sender ? sender.send(bytes) : thread.postMessage({ commands: bytes }));
    const client = new Client(send, () => thread.terminate());
    const hear = ({ emptied, replies, status, fault }) => {
      if (emptied) sender.emptied();
      else if (replies) client.hear(replies);
      else client.lose(fault ?? `the program has ended with status ${status}`);
    };
    const thread = await threadOf(hear, (why) => client.lose(why));
    thread.postMessage({ module: compiled, words, shared });
    return client;
  },

  /** As `open`, with the first of these modules that this machine takes. */
  async openFirst(modules, options) {
    const faults = [];
    for (const module of modules) {
      try {
        return await Engine.open(module, options);
      } catch (error) {
        if (!(error instanceof WebAssembly.CompileError)) throw error;
        faults.push(error.message);
      }
    }
    throw new ClientError(`this machine must take one of the modules, got ${faults.join("; ")}`);
  },
};
