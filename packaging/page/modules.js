// The program as WebAssembly, in the form that this browser takes.

import { sumOf } from "./sha256.js";

const MODULES = ["wasm64.wasm", "wasm32.wasm"];

/** The first module that this browser takes, with its name and its sum. */
export async function moduleHere() {
  const faults = [];
  for (const name of MODULES) {
    const answer = await fetch(name);
    if (!answer.ok) throw new Error(`${name} must be beside this page, got status ${answer.status}`);
    const bytes = new Uint8Array(await answer.arrayBuffer());
    try {
      return { module: await WebAssembly.compile(bytes), name, sum: sumOf(bytes) };
    } catch (error) {
      faults.push(error.message);
    }
  }
  throw new Error(`this browser must have WebAssembly, got ${faults.join("; ")}`);
}
