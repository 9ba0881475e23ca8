// The time of a step: in picoseconds if the unit of time is known, else in units of sigma (m / epsilon)^0.5, which is τ.

import { label } from "./axes.js";
import { text } from "./texts.js";

export class Clock {
  constructor({ dt, reduced_dt }) {
    [this.per, this.unit] = dt === null ? [reduced_dt, "τ"] : [dt / 1000, "ps"];
  }

  text(step) {
    return `${label(Number((step * this.per).toPrecision(4)))} ${this.unit}`;
  }
}

// A step as it is told: with its time.
export function stepText(step, clock) {
  const told = text("atStep", { step: step.toLocaleString("en").replace("-", "−") });
  return clock ? `${told} · ${clock.text(step)}` : told;
}
