// A link that holds a scene: which atoms, how they were loaded, the step that was reached, and which charts are shown. It holds no token.

import { text } from "./texts.js";

const MOST_LETTERS = 1000;
const MOST_SHOWN = 40; // letters of what is wrong
const MOST_STEPS = 1000000;
const MOST_ATOMS = 4096;
const NEEDED = ["scene", "atoms", "temperature", "dt", "step"];
const WORDS = [...NEEDED, "time", "charts", "axis", "check", "lang"];
const CHARTS = ["distance", "energy", "second", "speeds", "radial"];
const SLIP = /^#[\w-]{1,16}\.\w+$/; // what the link of a student's slip has, which is for the class alone
const REAL = /^\d+(\.\d+)?(e[+-]?\d+)?$/;
const SUM = /^[0-9a-f]{8}$/;
export const TURN = "turn";

// Tells what is wrong, in the language that is chosen then.
const fault = (key, values) => ({ fault: () => text(key, values) });
const short = (word) => (word.length > MOST_SHOWN ? `${word.slice(0, MOST_SHOWN)}..` : word);

function faultOfWhole(name, word, least, most) {
  const fits = /^-?\d{1,7}$/.test(word) && Number(word) >= least && Number(word) <= most;
  return fits ? null : fault("linkWhole", { name, least, most, got: short(word) });
}

function faultOfOne(name, words, wanted) {
  const wrong = words.find((word) => !wanted.includes(word));
  return wrong === undefined ? null : fault("linkOneOf", { name, wanted: wanted.join(", "), got: short(wrong) });
}

// What the fragment of an address holds: a `scene`, or the `fault` of one. Neither where it is not of a scene.
export function sceneIn(hash) {
  if (hash.length < 2 || SLIP.test(hash)) return {};
  if (hash.length > MOST_LETTERS) return fault("linkLong", { most: MOST_LETTERS, got: hash.length });
  const words = [...new URLSearchParams(hash.slice(1))];
  const said = Object.fromEntries(words);
  if (words.length === 1 && "lang" in said) return {};
  const isWhole = words.length === Object.keys(said).length && NEEDED.every((name) => name in said) && words.every(([name]) => WORDS.includes(name));
  if (!isWhole) return fault("linkWords", { needed: NEEDED.join(", "), others: WORDS.slice(NEEDED.length).join(", ") });
  const real = ["temperature", "dt"].find((name) => !REAL.test(said[name]));
  const charts = (said.charts ?? "").split(".").filter(Boolean);
  const wrong =
    faultOfWhole("atoms", said.atoms, 1, MOST_ATOMS) ??
    (real ? fault("linkReal", { name: real, got: short(said[real]) }) : null) ??
    faultOfWhole("step", said.step, -MOST_STEPS, MOST_STEPS) ??
    faultOfOne("time", [said.time ?? "forward"], ["forward", "backward"]) ??
    faultOfOne("charts", charts, CHARTS) ??
    faultOfOne("axis", [said.axis ?? "steps"], ["steps", "time"]) ??
    (SUM.test(said.check ?? "00000000") ? null : fault("linkCheck", { got: short(said.check) }));
  if (wrong) return wrong;
  const { scene: title, time, axis, check } = said;
  const [atoms, temperature, dt, step] = [said.atoms, said.temperature, said.dt, said.step].map(Number);
  return { scene: { title, load: { atoms, temperature, dt }, step, direction: time === "backward" ? -1 : 1, charts: "charts" in said ? charts : null, axis, check } };
}

// The link to this page with a scene that was loaded with these settings, and is at this step of a frame. Of the address of the page it has
// neither the fragment nor the query.
export function linkOf({ title, settings }, { step, direction }, charts, axis, check) {
  const { atoms, temperature, dt } = settings;
  const words = { scene: title, atoms, temperature, dt, step, ...(direction < 0 ? { time: "backward" } : {}), charts: charts.join("."), axis, ...(check ? { check } : {}) };
  return `${location.origin}${location.pathname}#${new URLSearchParams(words)}`;
}

// How a step is reached from the load: numbers of steps, and turns of time, of which each goes back by one step.
export function wayTo(step, direction) {
  if (step >= 0) return direction > 0 ? [step] : [step + 1, TURN];
  return direction > 0 ? [TURN, -step, TURN] : [TURN, -1 - step];
}

// A sum of the places now and one step before, which are the whole motion: FNV-1a of 32 bits.
export function sumOf({ now, before }) {
  const all = `${now}\n${before}`;
  let sum = 0x811c9dc5;
  for (let place = 0; place < all.length; place++) sum = Math.imul(sum ^ all.charCodeAt(place), 0x01000193);
  return (sum >>> 0).toString(16).padStart(8, "0");
}

// Whether what is shown follows from the load by steps and turns alone. Nothing else is held by a link.
export class Course {
  constructor() {
    this.isPlain = this.wasPlain = true;
  }

  // Takes in what the page has done, and whether that has found the session changed, as after commands that were typed.
  take(does, hasJumped) {
    if (does === "load" || does === "restart") this.isPlain = true;
    else if (does === "save") this.wasPlain = this.isPlain;
    else if (does === "restore") this.isPlain = this.wasPlain;
    else if (does === "tug" || hasJumped) this.isPlain = false;
  }
}
