// The scale of a simulation: what its whole numbers mean. It is `ljclient.Scale`, and computes as that does, bit for bit.

import { general, nano, quotient, repr, rounded } from "./numbers.js";

export const RING = 2 ** 32;
export const MAX_STEP_FACTOR = 2 ** 24;
export const KELVIN = 8.617333262e-5; // in electronvolt
export const ARGON = { sigma: 3.4, epsilon: 119.8, mass: 39.948 }; // angstrom, kelvin, dalton
const POTENTIAL_UNIT = 2 ** 24;
const SPEED_SQUARED = 1.602176634e-19 / (1.6605390666e-27 * 1e10); // an electronvolt in dalton angstrom^2 / femtosecond^2
const METRES_PER_SECOND = 1e5; // of an angstrom per femtosecond
const MILLION = 1e6;

function checkPositive(name, number) {
  if (!(number > 0 && number < Infinity)) throw new Error(`${name} must be a finite number above 0, got ${Number.isFinite(number) ? repr(number) : number}`);
}

export class Scale {
  // The scale of these: h, or epsilon (electronvolt), mass (dalton) and dt (femtoseconds), of which h is the nearest whole number.
  static of(edge, sigma, { h = null, epsilon = null, mass = null, dt = null }) {
    const scale = Object.assign(new Scale(), { edge, sigma, epsilon, mass });
    if (h === null) {
      for (const [name, number] of Object.entries({ dt, sigma, epsilon, mass })) checkPositive(name, number);
      scale.h = scale.factorOf(dt, (shortest, longest) => `dt must be from ${shortest(3)} to ${longest(3)} fs for these atoms, got ${general(dt)} fs`);
    } else {
      scale.h = h;
    }
    const [wide, long] = [edge, sigma].map((number) => (Number.isFinite(number) ? nano(repr(number)) : 0n));
    scale.onRing = wide > 0n ? (long * BigInt(RING)) / wide : 0n;
    return scale;
  }

  // sigma in ring units.
  get sigmaOnRing() {
    return Number(this.onRing);
  }

  get hasUnits() {
    return this.epsilon !== null && this.mass !== null;
  }

  get reducedDt() {
    return Math.sqrt(this.h / RING);
  }

  // sigma sqrt(m / epsilon), in femtoseconds.
  get timeUnit() {
    return this.sigma * Math.sqrt(this.mass / (this.epsilon * SPEED_SQUARED));
  }

  // The time step in femtoseconds, if that is known.
  get dt() {
    return this.hasUnits ? this.reducedDt * this.timeUnit : null;
  }

  // epsilon / k_B in kelvin; 1 in reduced units.
  get temperatureUnit() {
    return this.epsilon === null ? 1 : this.epsilon / KELVIN;
  }

  // The step factor nearest to a time step. An error, which is said by `fault`, if there is none.
  factorOf(dt, fault) {
    const unit = this.hasUnits ? this.timeUnit : 1;
    const h = dt > 0 && dt < Infinity ? rounded((dt / unit) ** 2 * RING) : 0;
    if (h >= 1 && h <= MAX_STEP_FACTOR) return h;
    const [shortest, longest] = [1, MAX_STEP_FACTOR].map((limit) => (digits) => general(unit * Math.sqrt(limit / RING), digits));
    throw new Error(fault(shortest, longest));
  }

  // The same scale with another time step: in femtoseconds if that is known, else in sigma sqrt(m / epsilon).
  withDt(dt) {
    const unit = this.hasUnits ? " fs" : "";
    const h = this.factorOf(dt, (shortest, longest) => `dt must be from ${shortest(2)} to ${longest(3)}${unit}, got ${general(dt)}`);
    return Object.assign(new Scale(), this, { h });
  }

  // The number of a kinetic energy in epsilon: the sum of the squares of all displacements.
  kineticNumber(energy) {
    return (energy * 2 * Number(this.onRing ** 2n) * this.h) / RING;
  }

  // Of what MEASURE tells, in words: the energies of an atom in epsilon, and the temperature.
  measured(atoms, kinetic, potential) {
    const energy = quotient(BigInt(kinetic) * BigInt(RING), 2n * this.onRing ** 2n * BigInt(this.h));
    const temperature = (this.temperatureUnit * 2 * energy) / (3 * atoms);
    return { kinetic: energy / atoms, potential: quotient(BigInt(potential), BigInt(POTENTIAL_UNIT)) / atoms, temperature };
  }

  // What a page has to know to draw it, and to tug its atoms. DUMP shows places exactly in the box in which scenes are loaded.
  likeness() {
    const { dt, sigma, reducedDt } = this;
    const speed = dt === null ? null : ((sigma * reducedDt) / dt) * METRES_PER_SECOND;
    const edge = RING / this.sigmaOnRing;
    return { edge, sigma: this.sigmaOnRing, unit: MILLION, exact: true, reduced_dt: reducedDt, dt, speed, in_kelvin: this.epsilon !== null };
  }
}
