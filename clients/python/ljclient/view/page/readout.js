// What the box shows, in numbers: the state, the places of the atoms that are named, and a tug without a mouse.

import { RING, distance } from "./box.js";
import { text } from "./texts.js";

const EACH = 1000; // milliseconds at least between two changes while it plays, so that a screen reader can read them
const MOST = 64; // atoms
const NAMED = /^\s*\d{1,7}(\s*-\s*\d{1,7})?(\s*,\s*\d{1,7}(\s*-\s*\d{1,7})?)*\s*$/;
const part = (name) => document.getElementById(name);

// The numbers that a text names, such as `0-4, 17`, of atoms up to the last one. Nothing if it names none, or others.
export function named(words, last) {
  if (!NAMED.test(words)) return null;
  const found = [];
  for (const word of words.split(",")) {
    const [first, end = first] = word.split("-").map(Number);
    if (end > last || first > end || found.length + end - first >= MOST) return null;
    for (let atom = first; atom <= end; atom++) found.push(atom);
  }
  return found;
}

const row = (head, ...cells) => {
  const made = document.createElement("tr");
  const title = Object.assign(document.createElement("th"), { scope: "row", textContent: head });
  made.append(title, ...cells.map((cell) => Object.assign(document.createElement("td"), { textContent: cell })));
  return made;
};

export class Readout {
  // `tug` is told an atom, and by how many sigma it is pulled to the right and upward.
  constructor(panel, tug) {
    Object.assign(this, { panel, form: part("pull"), told: 0, atoms: [], rows: [], timer: null });
    panel.addEventListener("toggle", () => this.draw());
    part("which").addEventListener("input", () => this.choose());
    this.form.addEventListener("submit", (event) => {
      event.preventDefault();
      const { atom, right, up } = this.form.elements;
      tug(Number(atom.value), Number(right.value), Number(up.value));
    });
  }

  // Begins with other atoms, which have these places at the start.
  begin(start, { edge, sigma }) {
    Object.assign(this, { start, edge, sigma, last: start.length / 3 - 1, told: 0 });
    this.form.elements.atom.max = this.last;
    this.form.elements.atom.value = Math.min(this.form.elements.atom.value, this.last);
    this.atoms = named(part("which").value, this.last) ?? [...Array(Math.min(5, this.last + 1)).keys()];
    this.warn("");
  }

  // Takes in which atoms are named.
  choose() {
    if (!this.start) return;
    const got = part("which").value;
    const atoms = named(got, this.last);
    this.atoms = atoms ?? this.atoms;
    this.warn(atoms ? "" : text("whichAtomsBad", { last: this.last, most: MOST, got }));
    this.draw();
  }

  warn(fault) {
    part("which-fault").textContent = fault;
    part("which").setAttribute("aria-invalid", String(fault !== ""));
  }

  // Takes in the names and values of the state, and the places of all atoms.
  show(rows, places) {
    Object.assign(this, { rows, places });
    this.timer ??= setTimeout(() => this.draw(), Math.max(0, this.told + EACH - performance.now()));
  }

  draw() {
    clearTimeout(this.timer);
    this.timer = null;
    if (!this.panel.open || !this.places) return;
    this.told = performance.now();
    part("state-now").replaceChildren(...this.rows.map(([name, value]) => row(name, value)));
    part("places-now").replaceChildren(...this.atoms.map((atom) => this.rowOf(atom)));
  }

  rowOf(atom) {
    const at = (places) => places.subarray(3 * atom, 3 * atom + 3);
    const far = distance(at(this.places), at(this.start)) / this.sigma;
    return row(String(atom), ...[...at(this.places)].map((place) => ((place / RING) * this.edge).toFixed(4)), far.toFixed(4));
  }
}
