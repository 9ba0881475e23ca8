// The record of the session that is shown, as `record=` of the client in Python writes one: `python3 -m ljclient verify` plays it.

import { Sha256, sumOf } from "./sha256.js";

const HEAD = "ljserve record 2";
const CHECK_DIGITS = 8;
const LOADS = ["LOAD", "LOADMIX"];
const OF_A_SESSION = new Set([...LOADS, ..."ADVANCE START REVERSE BRANCH RESTORE FORGET TUG MEASURE SHOW DUMP LIST DROP".split(" ")]);
const READING = new Set(["MEASURE", "SHOW", "DUMP", "LIST"]);
const NO_SESSION = 10;
const OUTSIDE = new Set([1, 4, 5, 8, 20, 21, 22, 90, NO_SESSION]); // refusals that the session alone does not bring about
const OF_NO_COMMAND = [1, 5];
const EACH = 60; // of so many frames that follow each other, one is read by the record

const wordsOf = (line) => line.split(/[ \t]+/).filter(Boolean);

function refusalOf(first) {
  const [word, number] = first.split(" ");
  return word === "ERR" ? Number(number) : null;
}

function sentLines(line, body) {
  const rows = body ? body.split("\n") : [];
  if (rows.at(-1) === "") rows.pop();
  return [`> ${line}`, ...rows.map((row) => `: ${row}`)];
}

function replyLines([first, ...rest]) {
  if (!rest.length) return [`${OUTSIDE.has(refusalOf(first)) ? "!" : "<"} ${first}`];
  return [`< ${first}`, `+ ${sumOf(rest.map((line) => `${line}\n`).join(""))}`];
}

export class Record {
  #chain = new Sha256().update(`${HEAD}\n`);
  #lines = [];
  #quota = [1, 0, 0]; // sessions, atoms, branches
  #atoms = 0;
  #saved = new Set();
  #frames = 0;
  #isLoaded = false;
  #isOver = false;

  // The session has this name, and `above` is what stands above all commands: who writes it, and the program.
  constructor(name, above) {
    Object.assign(this, { name, above });
  }

  get isBegun() {
    return this.#lines.length > 0;
  }

  // Hears of a command and its reply.
  hear({ line, body, lines, isOfFrame }) {
    const words = wordsOf(line);
    if (this.#isOver || !OF_A_SESSION.has(words[0]) || words[1] !== this.name) return;
    const [refusal, isGranted] = [refusalOf(lines[0]), lines[0].startsWith("OK ")];
    const isLoad = LOADS.includes(words[0]);
    if (!(this.#isLoaded || isLoad) || !(this.isBegun || isGranted)) return;
    if (isOfFrame && READING.has(words[0]) && !this.#isDue(words[0])) return;
    if (OF_NO_COMMAND.includes(refusal) || refusal === NO_SESSION) return void (this.#isOver = true);
    if (!this.isBegun) this.#tell(...this.above);
    if (isGranted) this.#follow(words, lines[0]);
    this.#tell(...sentLines(line, body), ...replyLines(lines));
    if (!this.#isLoaded) this.#isOver = true;
  }

  // Hears that what follows loads the session in a new program.
  move() {
    if (this.isBegun && !this.#isOver) this.#tell("moved");
  }

  // The text of the record so far, with its end.
  text() {
    const end = this.#chain.copy().update("end\n").hex().slice(0, CHECK_DIGITS);
    return [HEAD, ...this.#lines, `${end} end`].map((line) => `${line}\n`).join("");
  }

  // Whether what is read of a frame is kept: that of the first of so many.
  #isDue(verb) {
    if (verb === "DUMP") this.#frames += 1;
    return this.#frames % EACH === 1;
  }

  // Follows what the session has, and tells a larger quota before the command that needs it.
  #follow([verb, , name], first) {
    if (LOADS.includes(verb)) [this.#isLoaded, this.#atoms] = [true, Number(first.split(" ").at(-1))], this.#saved.clear();
    else if (verb === "BRANCH") this.#saved.add(name);
    else if (verb === "FORGET") this.#saved.delete(name);
    else if (verb === "DROP") this.#isLoaded = false;
    const [sessions, atoms, branches] = this.#quota;
    const needed = [sessions, Math.max(atoms, this.#atoms), Math.max(branches, this.#saved.size)];
    if (needed.join() === this.#quota.join()) return;
    this.#quota = needed;
    this.#tell(`quota sessions ${needed[0]} atoms ${needed[1]} branches ${needed[2]}`);
  }

  #tell(...lines) {
    for (const line of lines) this.#lines.push(`${this.#chain.update(`${line}\n`).hex().slice(0, CHECK_DIGITS)} ${line}`);
  }
}
