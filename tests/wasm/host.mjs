// Calls functions of packaging/wasm/host.c: node host.mjs MODULE [WORD..] < CALLS. The calls are a list in JSON, each a name and whole
// numbers in hexadecimal, and of a number of 128 bits both halves, the lower first. For each a line tells the result: what it returns,
// or of one that returns two words both of them; or the status that it ends with. The words are those of the command line.
import { readFileSync } from "node:fs";

const ROOM = 64n; // where a function puts two words that it returns
const words = process.argv.slice(3).map((word) => new TextEncoder().encode(word));
const host = {
  read: () => 0n,
  write: () => 0n,
  word(number, to, room) {
    const word = words[Number(number)];
    if (!word) return -1n;
    new Uint8Array(memory.buffer).set(word.subarray(0, Number(room)), Number(to));
    return BigInt(word.length);
  },
  exit(status) {
    throw { status };
  },
};
const { instance } = await WebAssembly.instantiate(readFileSync(process.argv[2]), { host });
const { memory, ...functions } = instance.exports;
const returnsTwo = (name) => name.startsWith("__") || ["rattle_alloc", "rattle_realloc"].includes(name);

function call(name, words) {
  const numbers = words.map(BigInt);
  if (name === "fill") return new Uint8Array(memory.buffer).fill(Number(numbers[2]), Number(numbers[0]), Number(numbers[0] + numbers[1]));
  if (name === "count") {
    const bytes = new Uint8Array(memory.buffer).subarray(Number(numbers[0]), Number(numbers[0] + numbers[1]));
    return bytes.filter((byte) => byte === Number(numbers[2])).length;
  }
  if (name === "bytes") return [...new Uint8Array(memory.buffer).subarray(Number(numbers[0]), Number(numbers[0] + numbers[1]))];
  if (name === "_exit") numbers[0] = Number(numbers[0]);
  if (name.endsWith("shlti3") || name.endsWith("shrti3")) numbers[2] = Number(numbers[2]);
  if (!returnsTwo(name)) return functions[name](...numbers);
  functions[name](ROOM, ...numbers);
  return [...new BigUint64Array(memory.buffer).subarray(Number(ROOM / 8n), Number(ROOM / 8n) + 2)];
}

for (const [name, ...words] of JSON.parse(readFileSync(0))) {
  try {
    console.log([call(name, words)].flat().join(" "));
  } catch ({ status }) {
    console.log(`${status} is the status`);
  }
}
