// What a page can show: ready scenes, and the atoms of a file, with the scale and the heat that they begin with. It is the view's
// scenes.py, and loads what that loads, byte by byte.

import { displacements } from "./heating.js";
import { millionths, repr, shown } from "./numbers.js";
import { ARGON, KELVIN, Scale } from "./scale.js";

export const EXACT_EDGE = "4294.967296"; // with it a ring unit is a millionth, the last digit of what DUMP tells
export const MAX_BYTES = 1048576; // of a text
const DENSITY = 0.8442;
const CELLS = 4, FEWEST_CELLS = 3, MOST_CELLS = 10; // of the crystal along each axis
const FACES = [[0, 0, 0], [0.5, 0.5, 0], [0.5, 0, 0.5], [0, 0.5, 0.5]];
const H = 131072, HEAT = 1.5;
const THIN = 0.2; // so few atoms for each sigma^3 that 32 of them have a box wider than five sigma
const ROUNDING = "view-load"; // the session by which atoms are rounded to places
const LATTICE = /\bLattice\s*=\s*"([^"]*)"/;
const COLUMNS = /\bProperties\s*=\s*(?:"([^"]*)"|(\S+))/g;

export const bytesOf = (text) => new TextEncoder().encode(text).length;
export const tooLong = (bytes) => `the XYZ text must have at most ${MAX_BYTES} bytes, got ${bytes}`;

// The number, from 0 on, that a wish has under a word.
function realIn(wish, word) {
  const number = wish[word];
  if (typeof number !== "number" || !(number >= 0 && number < 1e12)) throw new Error(`${word} must be a number from 0 on, got ${shown(number)}`);
  return number;
}

export class Scene {
  // Of a crystal there may be more atoms or fewer. The temperature is in kelvin if the scale has epsilon, else in epsilon / k.
  constructor({ title, body, scale, temperature, seed = 1, isCrystal = false }) {
    Object.assign(this, { title, body, scale, temperature, seed, isCrystal });
  }

  // How many atoms there are, as the first word says. 0 if that is no number, and then the program refuses them.
  get atoms() {
    const [word] = this.body.trim().split(/\s+/, 1);
    return /^\d+$/.test(word) ? Number(word) : 0;
  }

  // What a page can begin it anew with, as it is now.
  settings() {
    const cells = Array.from({ length: MOST_CELLS + 1 - FEWEST_CELLS }, (_, k) => FEWEST_CELLS + k);
    const sizes = this.isCrystal ? cells.map((each) => FACES.length * each ** 3) : [this.atoms];
    return { temperature: this.temperature, dt: this.scale.dt ?? this.scale.reducedDt, atoms: this.atoms, sizes };
  }

  // The scene with the temperature, the time step and the number of atoms that a wish says, as far as it says them.
  changed(wish) {
    let scene = this;
    if (this.isCrystal && "atoms" in wish && wish.atoms !== this.atoms) {
      const cells = Math.round((realIn(wish, "atoms") / FACES.length) ** (1 / 3));
      if (!(cells >= FEWEST_CELLS && cells <= MOST_CELLS && FACES.length * cells ** 3 === wish.atoms)) throw new Error(`atoms must be ${FACES.length} n^3 for a crystal, with n from ${FEWEST_CELLS} to ${MOST_CELLS}, got ${shown(wish.atoms)}`);
      scene = crystal(this.scale.h, this.temperature, this.seed, cells);
    }
    if ("dt" in wish) scene = new Scene({ ...scene, scale: scene.scale.withDt(realIn(wish, "dt")) });
    if ("temperature" in wish) scene = new Scene({ ...scene, temperature: realIn(wish, "temperature") });
    scene.displacements();
    return scene;
  }

  // The first displacement of each atom. An atom alone begins at rest, and so do all without a temperature.
  displacements() {
    return this.temperature && this.atoms > 1 ? displacements(this.atoms, this.temperature, this.scale, this.seed) : [];
  }

  // Loads the atoms, so that each coordinate of DUMP gives a place exactly: first with the scale of the file, which rounds them to
  // places, and then these places as they are. `drop` is called between, when nothing can be refused any more.
  async begin(program, name, drop) {
    const moved = this.displacements();
    const { edge, sigma, h, onRing } = this.scale;
    if (bytesOf(this.body) > MAX_BYTES) throw new Error(tooLong(bytesOf(this.body)));
    const loaded = await load(program, ROUNDING, [repr(edge), repr(sigma), h], this.body);
    const atoms = Number(loaded[0].split(" ").at(-1));
    const shows = Array.from({ length: atoms }, (_, atom) => `SHOW ${ROUNDING} ${atom}`);
    const [dumped, ...shown] = await program.askAll([`DUMP ${ROUNDING}`, ...shows]);
    await program.ask(`DROP ${ROUNDING}`);
    await drop();
    const symbols = dumped.slice(3).map((line) => line.split(" ")[0]);
    const rows = shown.map(([line], atom) => [symbols[atom], ...line.split(" ").slice(-3).map((word) => repr(Number(word) / 1e6))]);
    await load(program, name, [EXACT_EDGE, millionths(onRing), h], textOf(rows, "ljclient"));
    await program.askAll(moved.map(([x, y, z], atom) => `TUG ${name} ${atom} ${x} ${y} ${z}`));
  }
}

const load = (program, name, words, body) => program.ask(`LOAD ${name} ${words.join(" ")} rest ${bytesOf(body)}`, body);

const textOf = (rows, comment) => `${rows.length}\n${comment}\n${rows.map((row) => `${row.join(" ")}\n`).join("")}`;

// A face-centred cubic lattice of so many cells along each axis.
function lattice(cells, edge) {
  const each = Array.from({ length: cells }, (_, k) => k);
  const corners = each.flatMap((i) => each.flatMap((j) => each.map((k) => [i, j, k])));
  const sites = corners.flatMap((corner) => FACES.map((face) => face.map((part, axis) => ((corner[axis] + part) * edge) / cells)));
  return textOf(sites.map((site) => ["Ar", ...site.map(repr)]), "face-centred cubic");
}

const edgeOf = (atoms, density) => Number(((atoms / density) ** (1 / 3)).toFixed(6));

// A crystal, as dense as liquid argon, in reduced units: of 256 atoms by default.
export function crystal(h, temperature, seed, cells = CELLS, title = temperature ? "A crystal that melts" : "A crystal") {
  const edge = edgeOf(FACES.length * cells ** 3, DENSITY);
  return new Scene({ title, body: lattice(cells, edge), scale: Scale.of(edge, 1, { h }), temperature, seed, isCrystal: true });
}

// A lattice of 32 atoms, so thin that it is a gas at once.
export function gas(h, temperature, seed) {
  const edge = edgeOf(32, THIN);
  return new Scene({ title: "A gas of 32 atoms", body: lattice(2, edge), scale: Scale.of(edge, 1, { h }), temperature, seed });
}

export const ready = () => [crystal(H, HEAT, 1), crystal(H, HEAT, 1, FEWEST_CELLS, "A small crystal that melts"), gas(H, HEAT, 1)];

// The comment line of the first frame of XYZ text, as Python's client finds it; nothing if there is no such frame.
function commentOf(text) {
  const lines = text.split("\n");
  const first = lines.findIndex((line) => line.trim());
  return first >= 0 && /^\s*[+-]?\d+(\s|$)/.test(lines[first]) ? (lines[first + 1] ?? "") : "";
}

// The edge of the cube that a text says as its Lattice. Nothing if it says none.
export function edgeIn(text) {
  const cell = (LATTICE.exec(commentOf(text))?.[1] ?? "").split(/\s+/).filter(Boolean).map(Number);
  const [edge] = cell;
  const isCube = cell.length === 9 && edge > 0 && cell.every((part, place) => Math.abs(part - (place % 4 ? 0 : edge)) <= 1e-9 * edge);
  return isCube ? edge : null;
}

// The atoms of a file, which are at rest or have velocities of a temperature: its columns of velocities are left out. Lengths are in
// angstrom, epsilon and temperatures in kelvin, the mass in dalton, and the time step in femtoseconds.
export function ofFile(title, text, { edge, sigma = ARGON.sigma, epsilon = ARGON.epsilon, mass = ARGON.mass, dt = 10, temperature = 0 }) {
  const comment = commentOf(text);
  const body = comment ? text.replace(comment, () => comment.replace(COLUMNS, "")) : text;
  return new Scene({ title, body, scale: Scale.of(edge, sigma, { epsilon: epsilon * KELVIN, mass, dt }), temperature });
}
