// A picture of a session on the wall: a slab of its atoms, as on the student's page, and how old it is.

import { Box, RING, leastImage } from "./box.js";
import { made, stepText } from "./rows.js";

const PLACES = 2 ** 16; // into which a place is told along an axis
const IN_SLAB = 50; // so many atoms are in the slab, at least
const THINNEST = 1.8; // in sigma
const ROUND = 2; // sigma round the atoms of a part of the box
const PART = 0.5; // of the box at most, where a part is shown

// A box of which nothing is pulled.
class StillBox extends Box {
  hears() {}
}

// The places and shades in a picture that was told.
function atomsIn({ drawn }) {
  const bytes = Uint8Array.from(atob(drawn), (letter) => letter.charCodeAt(0));
  const words = new Uint16Array(bytes.buffer);
  const count = words.length / 4;
  const places = new Float64Array(3 * count);
  const shades = new Array(count);
  for (let atom = 0; atom < count; atom++) {
    for (let axis = 0; axis < 3; axis++) places[3 * atom + axis] = (words[4 * atom + axis] / PLACES) * RING;
    shades[atom] = words[4 * atom + 3];
  }
  return { places, shades };
}

// The part of the box that has all atoms, where it is much smaller than the box: as a box of its own.
function partOf({ places, edge }) {
  const away = Float64Array.from(places, (place, k) => (leastImage(place - places[k % 3]) / RING) * edge);
  const ends = [0, 1, 2].map((axis) => away.filter((_, k) => k % 3 === axis)).map((all) => [Math.min(...all), Math.max(...all)]);
  const width = Math.max(...ends.map(([low, high]) => high - low)) + 2 * ROUND;
  if (width > PART * edge) return { places, edge };
  const middle = ends.map(([low, high]) => (low + high) / 2);
  return { places: away.map((place, k) => (0.5 + (place - middle[k % 3]) / width) * RING), edge: width };
}

// How long ago something was, in seconds.
function agoText(seconds) {
  if (seconds < 1.5) return "now";
  if (seconds < 60) return `${Math.round(seconds)} s ago`;
  return seconds < 3600 ? `${Math.round(seconds / 60)} min ago` : `${Math.round(seconds / 3600)} h ago`;
}

// A picture that was told, when its age is known here.
export function received(told) {
  const { places, shades } = atomsIn(told);
  const since = performance.now() - 1000 * told.age;
  return { ...told, ...partOf({ places, edge: told.edge }), shades, since, of: told.edge };
}

export class Picture {
  constructor(name) {
    this.canvas = made("canvas", name);
    this.canvas.setAttribute("role", "img");
    this.age = made("small", "age");
    this.part = made("small", "part");
    this.element = made("div", "picture", this.canvas, this.age, " ", this.part);
    this.element.hidden = true;
    this.box = new StillBox(this.canvas, () => {});
    this.shown = null;
  }

  // Shows a picture of a session of this name, or none.
  show(picture, name) {
    this.element.hidden = !picture;
    if (picture && picture !== this.shown) {
      const { places, shades, edge, step } = picture;
      this.box.begin(places, edge, 1);
      this.box.shades = shades;
      this.box.thickness = Math.max(THINNEST, (IN_SLAB / shades.length) * edge);
      this.canvas.setAttribute("aria-label", `A slab of the atoms of ${name} at step ${stepText(step)}`);
      this.isDrawn = false;
    }
    this.shown = picture;
    if (!this.isDrawn) this.draw();
    this.tell();
  }

  // Draws it, if it has a place: the slab in the middle, or that of the first atom where none is there.
  draw() {
    if (!this.shown || !this.canvas.clientWidth) return;
    this.box.depth = 0.5;
    this.box.draw();
    if (!this.box.slab().length) {
      this.box.depth = this.shown.places[2] / RING;
      this.box.draw();
    }
    this.isDrawn = true;
  }

  // Says how old it is, and how wide the part of the box is if that is not all.
  tell() {
    if (!this.shown) return;
    const { since, edge, of } = this.shown;
    this.age.textContent = agoText((performance.now() - since) / 1000);
    this.part.textContent = edge < of ? `${edge.toFixed(1)} of ${Math.round(of)} σ` : "";
  }
}
