// Whether the simulation has burst: whether steps have led the energy of an atom far from what it was at the start.

import { text } from "./texts.js";

const FAR = 10; // in epsilon an atom
// So many frames in a row, since kinetic energies are half a step old: in a hard collision of few atoms the total is off for a moment.
const FRAMES = 3;

export class BurstWatch {
  // Takes in the energy of a frame, and what the page has done that led to it.
  take(does, energy) {
    const { start, framesFar } = this.now ?? {};
    if (does === "load") this.now = this.first = { start: energy, framesFar: 0 };
    else if (does === "tug") this.now = { start: start + energy - this.energy, framesFar };
    else if (does === "save") this.saved = this.now;
    else if (does === "restore") this.now = this.saved;
    else if (does === "restart") this.now = this.first;
    else this.now = { start, framesFar: Math.abs(energy - start) > FAR ? framesFar + 1 : 0 };
    this.energy = energy;
  }

  get hasBurst() {
    return this.now?.framesFar >= FRAMES;
  }
}

// What is said of it, and what helps.
export function burstText({ dt, reduced_dt, settings }) {
  const step = dt === null ? `${Number(reduced_dt.toPrecision(4))} τ` : `${Number(dt.toPrecision(4))} fs`;
  return `${text("burst", { far: FAR })} ${text(settings ? "burstBegin" : "burstLoad", { step })}`;
}
