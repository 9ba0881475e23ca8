// The session that the page shows: what may be asked of it, and what is answered. It is the view's stage.py for a program of the page's
// own, and asks the same commands.

import { Refused } from "./asking.js";
import { shown } from "./numbers.js";
import { RING } from "./scale.js";
import { EXACT_EDGE, bytesOf } from "./scenes.js";

const MAX_STEPS = 1000;
const MAX_TUG = 2 ** 31 - 1;
const NO_SESSION = 10;
const START = "view-start", KEPT = "view-kept";
const NAMES = { [START]: "start", [KEPT]: "kept" };

export class Lost extends Error {}

const isWhole = (number, least, most) => Number.isInteger(number) && least <= number && number <= most;

// The number that a wish has under a word.
export function numberIn(wish, word, least, most) {
  if (!isWhole(wish[word], least, most)) throw new Error(`${word} must be a whole number from ${least} to ${most}, got ${shown(wish[word])}`);
  return wish[word];
}

const lastWord = (lines) => Number(lines[0].split(" ").at(-1));
const atomsOf = (dump) => dump.slice(3);
const placesOf = (line) => line.split(" ").slice(1).map((word) => Number(word.replace(".", "")));

// How many atoms are at the same places, and how many of these were so one step before. Their lines give places exactly.
function same(now, then) {
  const stays = now.places.map((line, atom) => line === then.places[atom]);
  const moves = stays.filter((stay, atom) => stay && now.before[atom] === then.before[atom]);
  return [stays.filter(Boolean).length, moves.length];
}

// A frame of XYZ text whose places are in ring units, of the lines of a frame.
function onRing(comment, lines) {
  const rows = lines.map((line) => [line.split(" ", 1)[0], ...placesOf(line).map((part) => `${part}e-6`)].join(" "));
  return `${rows.length}\n${comment}\n${rows.map((row) => `${row}\n`).join("")}`;
}

// The tugs that move atoms from their places one step before, of the lines of a frame, to others.
function tugsOf(name, lines, others) {
  const half = RING / 2;
  const moved = lines.map((line, atom) => {
    const [from, to] = [placesOf(line), placesOf(others[atom])];
    return from.map((part, axis) => ((part - to[axis] + half + RING) % RING) - half);
  });
  return moved.flatMap((by, atom) => (by.some(Boolean) ? [`TUG ${name} ${atom} ${by.join(" ")}`] : []));
}

export class Stage {
  // The second run beside it has a name of its own.
  constructor(program, name, scale, second = `${name}-2`) {
    Object.assign(this, { program, name, scale, second, hasSecond: false, motions: new Map(), saved: new Map(), isLost: false });
    this.count = { from: 0, by: 1 }; // the step that the program's step 0 is, and by how much each counts
    this.counts = new Map(); // the same of what is saved
    this.acts = {
      frame: (wish) => this.advance(numberIn(wish, "steps", 0, MAX_STEPS)),
      reverse: () => this.reverse(),
      tug: (wish) => this.tug(numberIn(wish, "atom", 0, this.motions.get(START).places.length - 1), wish.by),
      save: () => this.save(KEPT),
      restore: () => this.restore(KEPT),
      restart: () => this.restore(START),
      exact: () => this.compare(),
      speeds: () => this.both(),
      second: (wish) => (wish.on === true ? this.beginSecond() : this.endSecond()),
    };
  }

  // Finds the session, and saves where pages begin.
  async begin() {
    this.now = await this.found();
    await this.save(START);
  }

  // The answer to what a page wishes. What cannot be done changes nothing, and is thrown.
  async answer(wish) {
    const act = Object.hasOwn(this.acts, String(wish.do)) && this.acts[wish.do];
    if (!act) throw new Error(`do must be one of ${Object.keys(this.acts).join(", ")}, got ${shown(wish.do)}`);
    const jumped = await this.takeUp();
    return { ...(await act(wish)), ...jumped };
  }

  // What a page is told first: the present frame, and what the session is like.
  async shown() {
    return { ...(await this.advance(0)), likeness: { start: this.saved.get(START).step, ...this.scale.likeness() } };
  }

  async advance(steps) {
    const frame = await this.frame([...(this.hasSecond ? [`START ${this.second} ${steps}`] : []), `ADVANCE ${this.name} ${steps}`], steps > 0);
    return { ...frame, ...this.when(this.now.direction) };
  }

  async reverse() {
    const frame = await this.frame([...(this.hasSecond ? [`REVERSE ${this.second}`] : []), `REVERSE ${this.name}`]);
    return { ...frame, ...this.when(-this.now.direction) };
  }

  async tug(atom, by) {
    const fits = Array.isArray(by) && by.length === 3 && by.every((part) => isWhole(part, -MAX_TUG, MAX_TUG));
    if (!fits) throw new Error(`by must be three whole numbers of ring units, up to ${MAX_TUG} either way, got ${shown(by)}`);
    const frame = await this.frame([`TUG ${this.name} ${atom} ${by.join(" ")}`]);
    return { ...frame, ...this.when(this.now.direction) };
  }

  // Saves the simulation, in place of what was saved before.
  async save(name) {
    const frees = (await this.left()).includes(name) ? [`FORGET ${this.name} ${name}`] : [];
    const frame = await this.frame([...frees, `BRANCH ${this.name} ${name}`]);
    this.counts.set(name, this.count);
    this.motions.set(name, await this.motion());
    this.saved.set(name, this.now);
    return { ...frame, ...this.when(this.now.direction) };
  }

  // Goes back to what was saved. A second run ends.
  async restore(name) {
    if (!this.saved.has(name)) throw new Error("cannot restore: nothing is saved yet; use Save first");
    await this.dropSecond();
    this.count = this.counts.get(name);
    const frame = await this.frame([`RESTORE ${this.name} ${name}`]);
    return { ...frame, ...this.when(this.saved.get(name).direction), jumped: true };
  }

  // How many atoms have the very places that they had at the start, and when it was saved; how many of these move as they did then;
  // and whether that is the motion turned back.
  async compare() {
    const { direction } = this.now;
    const isTurned = (name) => this.saved.get(name).direction !== direction;
    const motions = new Map();
    for (const turned of [false, true]) if ([...this.motions.keys()].some((name) => isTurned(name) === turned)) motions.set(turned, await this.motion(turned));
    const told = { same: {}, moves: {}, turned: {} };
    for (const [name, then] of this.motions) {
      const to = NAMES[name];
      told.turned[to] = isTurned(name);
      [told.same[to], told.moves[to]] = same(motions.get(isTurned(name)), then);
    }
    return { ...told, atoms: this.motions.get(START).places.length, ...this.when(direction) };
  }

  // The places now and one step before, of which speeds are told.
  async both() {
    const { places, before } = await this.motion();
    return { now: places.join("\n"), before: before.join("\n") };
  }

  // Begins a second run beside this one, in place of one that is there: one atom goes one ring unit further in each step.
  async beginSecond() {
    const motion = await this.motion();
    await this.dropSecond();
    await this.program.askAll([this.loads(this.second, motion), `TUG ${this.second} 0 1 0 0`]);
    this.hasSecond = true;
    return this.advance(0);
  }

  async endSecond() {
    await this.dropSecond();
    return this.advance(0);
  }

  // Gives up the second run. Someone may have done so already.
  async dropSecond() {
    if (!this.hasSecond) return;
    this.hasSecond = false;
    await this.program.ask(`DROP ${this.second}`).catch(passed(NO_SESSION));
  }

  // The command that loads this motion, and its body.
  loads(name, { places, before }) {
    const body = onRing("one step before", before) + onRing("now", places);
    return [`LOAD ${name} ${EXACT_EDGE} ${this.scale.onRing}e-6 ${this.scale.h} pair ${bytesOf(body)}`, body];
  }

  // Goes on in a new program with all that is the page's: `renew` has the commands go there. A session has one load, and what is saved
  // in it is gone with it. So it is loaded as what was saved first, and made each other state by tugs.
  async move(renew) {
    const now = await this.motion();
    const second = this.hasSecond && (await this.motion(false, this.second));
    const names = [...this.saved.keys()];
    const states = [...names.map((name) => this.motions.get(name)), now];
    const turn = `REVERSE ${this.name}`;
    const changes = names.flatMap((name, place) => {
      const [from, to] = [states[place], states[place + 1]];
      const tugs = [...tugsOf(this.name, from.before, to.before), turn, ...tugsOf(this.name, from.places, to.places), turn];
      return [`BRANCH ${this.name} ${name}`, ...tugs];
    });
    await renew();
    await this.program.askAll([this.loads(this.name, states[0]), ...changes, ...(second ? [this.loads(this.second, second)] : [])]);
    const counted = ({ step, direction }) => ({ from: step, by: direction });
    for (const name of names) this.counts.set(name, counted(this.saved.get(name)));
    this.count = counted(this.now);
  }

  // Whether the program has nothing but what is the page's.
  async isAlone() {
    const [sessions, saved] = (await this.program.askAll(["LIST", `LIST ${this.name}`])).map((lines) => lines.slice(1).map((line) => line.split(" ")[0]));
    return sessions.every((name) => [this.name, this.second].includes(name)) && saved.every((name) => name in NAMES);
  }

  // The places of all atoms now and one step before; or, turned back, now and at the step that comes next.
  async motion(isTurned = false, name = this.name) {
    const [dump, turn, step] = [`DUMP ${name}`, `REVERSE ${name}`, `ADVANCE ${name} 1`];
    const further = isTurned ? [step, dump, turn, step, turn] : [];
    const dumps = (await this.program.askAll([dump, turn, dump, turn, ...further])).filter(([first]) => first.startsWith("OK DUMP "));
    return { places: atomsOf(dumps[0]), before: atomsOf(dumps.at(-1)) };
  }

  // What these commands lead to: all places and what is measured, asked for at once.
  async frame(commands, isOneOfMany = false) {
    const shows = [`DUMP ${this.name}`, `MEASURE ${this.name}`, ...(this.hasSecond ? [`DUMP ${this.second}`] : [])];
    const replies = await this.program.askAll([...commands, ...shows], isOneOfMany);
    const [dumped, [measured], second] = replies.slice(commands.length);
    const [step, atoms, , , , kinetic, potential] = measured.split(" ").slice(3);
    this.now = { ...this.now, step: this.stepOf(Number(step)) };
    const told = { atoms: atomsOf(dumped).join("\n"), ...this.scale.measured(Number(atoms), kinetic, potential) };
    return second ? { ...told, second: atomsOf(second).join("\n") } : told;
  }

  // The step that a step of the program is.
  stepOf(step) {
    return this.count.from + this.count.by * step;
  }

  // The step and the direction of time, whether that is before the start, and at which step the simulation was saved.
  when(direction) {
    this.now = { ...this.now, direction };
    const [start, kept] = [this.saved.get(START), this.saved.get(KEPT)];
    const { step } = this.now;
    return { step, direction, before: start !== undefined && (step - start.step) * start.direction < 0, saved: kept?.step ?? null };
  }

  // Finds the session again when somebody else has asked something of it.
  async takeUp() {
    if (!this.isLost) return {};
    await this.dropSecond();
    this.now = await this.found();
    const left = await this.left();
    if (!left.includes(START)) throw new Lost(`cannot go on with ${this.name}: it was loaded again; choose it again`);
    for (const name of this.saved.keys()) if (!left.includes(name)) [this.saved, this.motions].forEach((map) => map.delete(name));
    this.isLost = false;
    return { jumped: true };
  }

  // The step at which the session is, and the direction, for which the motion is turned back, which is undone.
  async found() {
    const turn = `REVERSE ${this.name}`;
    try {
      const [before, now] = (await this.program.askAll([turn, turn])).map((lines) => this.stepOf(lastWord(lines)));
      return { step: now, direction: now - before };
    } catch (error) {
      if (error.number === NO_SESSION) throw new Lost(`cannot go on with ${this.name}: the program no longer has it; choose other atoms`);
      throw error;
    }
  }

  // Which of the names that pages save under are taken.
  async left() {
    const lines = (await this.program.ask(`LIST ${this.name}`)).slice(1);
    return lines.map((line) => line.split(" ")[0]).filter((name) => name in NAMES);
  }
}

// Passes a refusal of this number over.
export const passed = (number) => (error) => {
  if (!(error instanceof Refused) || error.number !== number) throw error;
};
