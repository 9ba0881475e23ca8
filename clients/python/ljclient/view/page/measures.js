// What the atoms of one frame tell: how fast they are, and how far they are from one another.

import { RING, leastImage } from "./box.js";

// The speed of each atom, in sigma per unit of time, of its places now and one step before.
export function speeds(places, before, { sigma, reduced_dt }) {
  const found = new Float64Array(places.length / 3);
  for (let k = 0; k < places.length; k += 3) {
    const part = (axis) => leastImage(places[k + axis] - before[k + axis]) ** 2;
    found[k / 3] = Math.sqrt(part(0) + part(1) + part(2)) / (sigma * reduced_dt);
  }
  return found;
}

// Which share of the values lies in each of so many bins of this width, for each unit along the bottom. Larger ones are left out.
export function shares(values, width, count) {
  const bins = new Float64Array(count);
  for (const value of values) if (value < width * count) bins[Math.floor(value / width)] += 1 / (values.length * width);
  return bins;
}

// The distribution of speeds of Maxwell and Boltzmann, of atoms of mass 1 at a temperature in epsilon / k.
export function maxwell(speed, temperature) {
  return temperature > 0 ? Math.sqrt(2 / Math.PI) * speed ** 2 * temperature ** -1.5 * Math.exp(-(speed ** 2) / (2 * temperature)) : 0;
}

// The radial distribution function g(r) up to half the box, in bins of this width in sigma: how many more pairs of atoms are so
// far apart than if they lay anywhere. The edge is in sigma.
export function radial(places, edge, width) {
  const atoms = places.length / 3;
  const bins = new Float64Array(Math.floor(edge / 2 / width));
  const unit = edge / RING / width;
  const [x, y, z] = [0, 1, 2].map((axis) => places.filter((_, k) => k % 3 === axis));
  for (let one = 0; one < atoms; one++) {
    for (let other = one + 1; other < atoms; other++) {
      const [dx, dy, dz] = [leastImage(x[one] - x[other]), leastImage(y[one] - y[other]), leastImage(z[one] - z[other])];
      const bin = Math.floor(Math.sqrt(dx * dx + dy * dy + dz * dz) * unit);
      if (bin < bins.length) bins[bin] += 1;
    }
  }
  const anywhere = (bin) => ((atoms * (atoms - 1)) / 2) * (4 / 3) * Math.PI * ((bin + 1) ** 3 - bin ** 3) * (width / edge) ** 3;
  return bins.map((pairs, bin) => pairs / anywhere(bin));
}
