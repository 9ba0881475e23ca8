// What the page asks for, and what it is answered: which atoms it shows, and what is done with them. It is the view's talk.py for a
// program of the page's own, which shows a file too, gives a record, and answers commands that were typed.

import { faultOf } from "./commands.js";
import { Record } from "./record.js";
import { ARGON } from "./scale.js";
import { MAX_BYTES, edgeIn, ofFile, ready, tooLong } from "./scenes.js";
import { Lost, Stage, numberIn } from "./stage.js";

const NAME = "view-1";
const ENDED = "The program has ended. Load this page again";
const MOST_COMMANDS = 1000000; // that a program answers
const EARLY_SHARE = 0.9, EACH_SHARE = 0.02, LATE_SHARE = 0.98; // of these: what is left then is for what is asked beside frames
const NEARLY = `this program has answered nearly ${MOST_COMMANDS.toLocaleString("en")} commands, and takes no more: save the record, and load this page again`;
const OF_FILES = { sigma: ARGON.sigma, epsilon: ARGON.epsilon, mass: ARGON.mass, dt: 10, temperature: 0 };

export class Conversation {
  // `renew` returns a client of a new program, to which all goes after so many commands, and `above` are the lines that stand above all
  // commands of a record.
  constructor(program, renew, above = [], most = MOST_COMMANDS) {
    Object.assign(this, { program, renew, above, most, scenes: ready(), files: new Map(), stage: null, record: null });
    program.listeners.push((answer) => this.record?.hear(answer));
    this.others = {
      load: (wish) => this.load(wish),
      record: () => this.recorded(),
      commands: (wish) => this.typed(wish.commands),
    };
  }

  // What the page is told first.
  begin() {
    return this.answer({ do: "load", scene: 0 });
  }

  // The answer to what a page wishes. What cannot be done changes nothing.
  async answer(wish) {
    const told = await this.tried(wish);
    return told.error && !this.program.isOpen ? { ...told, error: `${ENDED} (${told.error}).`, ended: true } : told;
  }

  async tried(wish) {
    try {
      if (Object.hasOwn(this.others, String(wish.do))) return await this.others[wish.do](wish);
      if (!this.stage) throw new Error("cannot answer: no atoms are loaded yet; choose some first");
      if (wish.do === "frame" && !this.stage.isLost) await this.move();
      return await this.stage.answer(wish);
    } catch (error) {
      return { error: error.message, ...(error instanceof Lost ? { lost: true, choice: this.choices() } : {}) };
    }
  }

  // Begins with other atoms. The answer says what they are like, beside their first frame.
  async load(wish) {
    if ("session" in wish) throw new Error(`cannot show ${wish.session}: there is no session of this name; choose another`);
    if ("file" in wish) return this.loadFile(wish);
    const number = numberIn(wish, "scene", 0, this.scenes.length - 1);
    const scene = this.scenes[number].changed(wish);
    const record = new Record(NAME, this.above);
    await scene.begin(this.program, NAME, async () => {
      await this.drop();
      this.record = record;
    });
    const stage = new Stage(this.program, NAME, scene.scale);
    await stage.begin();
    this.stage = stage;
    const { likeness, ...first } = await stage.shown();
    const chosen = { number, session: null, title: scene.title, settings: scene.settings() };
    return { ...first, scene: { ...chosen, ...this.choices(), ...likeness } };
  }

  // Loads a file, whose text comes first, unless it is too long, and then what its atoms are: until that fits, it is asked for.
  async loadFile({ file, text, size, ...said }) {
    if (size > MAX_BYTES) throw new Error(tooLong(size));
    if (text !== undefined) this.files.set(file, text);
    const asks = (why) => ({ asks: "file", name: file, known: { ...OF_FILES, edge: edgeIn(this.files.get(file)) ?? "" }, why });
    if (text !== undefined) return asks("");
    const { scenes } = this;
    try {
      const numbers = Object.fromEntries(["edge", ...Object.keys(OF_FILES)].map((name) => [name, Number(said[name])]));
      if (!(numbers.edge > 0)) throw new Error(`the edge of the box must be a finite number above 0, got ${numbers.edge}`);
      const scene = ofFile(file, this.files.get(file), numbers);
      const older = scenes.findIndex(({ title, isOfFile }) => isOfFile && title === file);
      const number = older < 0 ? scenes.length : older;
      this.scenes = [...scenes.slice(0, number), scene, ...scenes.slice(number + 1)];
      scene.isOfFile = true;
      return await this.load({ scene: number });
    } catch (error) {
      this.scenes = scenes;
      if (!this.program.isOpen) throw error;
      return asks(error.message);
    }
  }

  // Goes on in a new program when most commands are used up. Where commands that were typed have left something in the old one, or where
  // there is no new one, it is gone on with until hardly any are left.
  async move() {
    const { program, stage, most } = this;
    if (program.asked < (this.triedAt ? this.triedAt + most * EACH_SHARE : most * EARLY_SHARE)) return;
    const client = (await stage.isAlone()) && (await this.renew().catch(() => null));
    if (client) {
      await stage.move(async () => {
        program.become(client);
        this.record.move();
      });
    } else if (program.asked >= most * LATE_SHARE) {
      throw new Error(NEARLY);
    }
    this.triedAt = client ? 0 : program.asked;
  }

  // Drops the session that was shown, and its second run.
  async drop() {
    const { stage } = this;
    this.stage = null;
    await stage?.dropSecond();
    const names = (await this.program.ask("LIST")).slice(1).map((line) => line.split(" ")[0]);
    if (names.includes(NAME)) await this.program.ask(`DROP ${NAME}`);
  }

  // The record so far, with all places and what is measured now.
  async recorded() {
    if (!this.record?.isBegun) throw new Error("cannot give a record: no atoms are loaded yet; choose some first");
    await this.program.askAll([`DUMP ${NAME}`, `MEASURE ${NAME}`]).catch((error) => error);
    return { record: this.record.text() };
  }

  // Answers commands that were typed, each a line and its body. They may do anything with the session that is shown.
  async typed(commands) {
    if (this.stage) this.stage.isLost = true;
    const told = [];
    for (const [line, body] of commands) {
      const fault = faultOf(line, body);
      told.push(fault ? [fault] : await this.program.ask(line, body).catch((error) => [error.first ?? error.message]));
    }
    return { told };
  }

  // What else there is to choose.
  choices() {
    return { titles: this.scenes.map(({ title }) => title), sessions: [] };
  }
}
