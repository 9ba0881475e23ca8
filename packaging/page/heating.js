// Velocities of a temperature, drawn at random, in whole ring units for each step: `ljclient.heating`.

import { general, rounded } from "./numbers.js";
import { RING } from "./scale.js";
import { Twister } from "./twister.js";

const AXES = [0, 1, 2];
const HALF = RING / 2;

// Displacements in a step of atoms that have this temperature together, and whose sum is 0 along each axis.
export function displacements(atoms, temperature, scale, seed) {
  const wanted = scale.kineticNumber((3 * atoms * temperature) / (2 * scale.temperatureUnit));
  const drawn = new Twister(seed);
  const parts = Array.from({ length: atoms }, () => AXES.map(() => drawn.gauss()));
  const means = AXES.map((axis) => parts.reduce((sum, each) => sum + each[axis], 0) / atoms);
  for (const each of parts) for (const axis of AXES) each[axis] -= means[axis];
  const squares = parts.reduce((sum, each) => AXES.reduce((part, axis) => part + each[axis] * each[axis], sum), 0);
  const stretch = wanted ? Math.sqrt(wanted / squares) : 0;
  const greatest = parts.flat().reduce((most, part) => Math.max(most, Math.abs(part)), 0);
  if (!(stretch * greatest < HALF - 1)) throw new Error(`cannot set a temperature of ${general(temperature)}: an atom would move by half the box or more in a step; use a lower temperature or a shorter time step`);
  return withoutSums(parts.map((each) => each.map((part) => rounded(stretch * part))));
}

// The same without what rounding adds to the sums: it is less than one for each atom.
function withoutSums(moved) {
  for (const axis of AXES) {
    const surplus = moved.reduce((sum, each) => sum + each[axis], 0);
    for (const each of moved.slice(0, Math.abs(surplus))) each[axis] -= Math.sign(surplus);
  }
  return moved;
}
