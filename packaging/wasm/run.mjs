// Runs a module of the program in Node: node packaging/wasm/run.mjs MODULE [WORD..] < COMMANDS. Its status is that of the program. Words
// are those of the command line of `ljserve`; `lj_run` takes none.
// Before Node 24 a module with memory of 64 bits needs `node --experimental-wasm-memory64`.
import { readFileSync, readSync, writeSync } from "node:fs";

import { programOf } from "../../clients/javascript/src/program.js";

function read(to) {
  for (;;) {
    try {
      return readSync(0, to);
    } catch (error) {
      if (error.code === "EOF") return 0;
      if (error.code !== "EAGAIN") throw error;
    }
  }
}

const write = (from, descriptor) => writeSync(descriptor, from);

const [file, ...words] = process.argv.slice(2);
process.exitCode = programOf(new WebAssembly.Module(readFileSync(file)), read, write, words)();
