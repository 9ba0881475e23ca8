// The box: a thin slab of the atoms, their places round the box, and the pull that tugs one of them.

export const RING = 2 ** 32;
const RADIUS = 0.5; // of an atom, in sigma
const SMALLEST = 3; // of a radius, in pixels
const EDGE_OF_SLAB = 0.35; // over how many sigma an atom fades at the faces of the slab
const SECOND = 0.35; // how strong the rings of the second run are
const SHADES = 32; // colours of atoms, by where they were at the start
const NEARNESSES = 6; // steps of paleness
const STRONGEST_PULL = 5; // in sigma
const LONG_PRESS = 400; // by touch, in milliseconds
const STILL = 10; // by how far a finger that is still may move, in pixels
const STOPS = [[47, 98, 178], [66, 156, 171], [143, 178, 92], [231, 176, 70], [211, 92, 55]];

export const leastImage = (difference) => difference - RING * Math.round(difference / RING);

// The places of a frame in ring units, of which a coordinate of 1 has so many.
export function placesOf(lines, unit = 1e6) {
  const rows = lines.split("\n");
  const places = new Float64Array(3 * rows.length);
  rows.forEach((row, atom) => {
    const words = row.split(" ");
    for (let axis = 0; axis < 3; axis++) places[3 * atom + axis] = Math.round(Number(words[1 + axis]) * unit);
  });
  return places;
}

// The root mean square distance of the atoms from other places, in ring units: 0 only if all are the same.
export function distance(places, others) {
  let sum = 0;
  for (let k = 0; k < places.length; k++) sum += leastImage(places[k] - others[k]) ** 2;
  return Math.sqrt(sum / (places.length / 3));
}

// A colour along the stops.
function colour(shade) {
  const at = (shade / SHADES) * (STOPS.length - 1);
  const [low, high] = [STOPS[Math.floor(at)], STOPS[Math.floor(at) + 1]];
  return `rgb(${low.map((part, k) => Math.round(part + (high[k] - part) * (at % 1))).join(" ")})`;
}

// Pictures of atoms, each of which is drawn once and then copied.
class Discs {
  constructor(radius, scale, paper) {
    Object.assign(this, { radius, scale, paper, half: radius + 1, drawn: new Map() });
  }

  fit(radius, scale, paper) {
    return this.radius === radius && this.scale === scale && this.paper === paper;
  }

  of(shade, nearness) {
    const key = shade * (NEARNESSES + 1) + nearness;
    if (!this.drawn.has(key)) this.drawn.set(key, this.draw(colour(shade), 0.5 + nearness / NEARNESSES / 2));
    return this.drawn.get(key);
  }

  draw(fill, strength) {
    const canvas = document.createElement("canvas");
    canvas.width = canvas.height = Math.ceil(2 * this.half * this.scale);
    const pen = canvas.getContext("2d");
    pen.scale(canvas.width / (2 * this.half), canvas.width / (2 * this.half));
    pen.arc(this.half, this.half, this.radius, 0, 2 * Math.PI);
    pen.strokeStyle = "rgb(0 0 0 / 40%)";
    for (const [style, alpha] of [[this.paper, 1], [fill, strength]]) {
      pen.globalAlpha = alpha;
      pen.fillStyle = style;
      pen.fill();
    }
    pen.stroke();
    return canvas;
  }
}

export class Box {
  // `tug` is told an atom and the ring units along x and y by which it was pulled.
  constructor(canvas, tug) {
    this.canvas = canvas;
    this.pen = canvas.getContext("2d", { alpha: false });
    this.discs = new Discs(1, 1, "");
    this.tug = tug;
    this.pull = null;
    this.press = null; // of a finger that may come to hold an atom
    this.depth = 0.5;
    this.thickness = 1.8;
    this.hears();
  }

  // Begins with atoms that have these places at the start.
  begin(places, edge, sigma) {
    this.places = places;
    this.second = null; // the places of a second run
    this.edge = edge;
    this.sigma = sigma;
    this.shades = Array.from({ length: places.length / 3 }, (_, atom) => Math.floor((places[3 * atom] / RING) * SHADES));
    this.pull = null;
  }

  get held() {
    return this.pull !== null;
  }

  // The atoms of the slab, the farthest first: number, centre on the canvas, and how far they have faded.
  slab(places = this.places) {
    const atoms = [];
    const half = this.thickness / 2;
    for (let atom = 0; 3 * atom < places.length; atom++) {
      const z = (leastImage(places[3 * atom + 2] - this.depth * RING) / RING) * this.edge;
      const alpha = Math.min(1, (half + EDGE_OF_SLAB - Math.abs(z)) / EDGE_OF_SLAB);
      if (alpha > 0) atoms.push({ atom, z, alpha, x: (places[3 * atom] / RING) * this.size, y: (1 - places[3 * atom + 1] / RING) * this.size });
    }
    return atoms.sort((one, other) => one.z - other.z);
  }

  draw() {
    const scale = window.devicePixelRatio || 1;
    this.size = this.canvas.clientWidth;
    const pixels = Math.round(this.size * scale);
    if (this.canvas.width !== pixels) this.canvas.width = this.canvas.height = pixels;
    this.pen.setTransform(scale, 0, 0, scale, 0, 0);
    const paper = getComputedStyle(this.canvas).backgroundColor;
    this.pen.globalAlpha = 1;
    this.pen.fillStyle = paper;
    this.pen.fillRect(0, 0, this.size, this.size);
    if (!this.places) return;
    this.radius = Math.max(SMALLEST, (RADIUS / this.edge) * this.size);
    if (!this.discs.fit(this.radius, scale, paper)) this.discs = new Discs(this.radius, scale, paper);
    for (const each of this.slab()) this.drawAtom(each);
    if (this.second) this.drawSecond();
    if (this.pull) this.drawPull();
    this.pen.globalAlpha = 1;
  }

  // An atom near a face of the box is drawn at the opposite face too, since the box goes on there. Far ones are paler.
  drawAtom({ atom, z, alpha, x, y }) {
    const near = Math.min(1, Math.max(0, 0.5 + z / this.thickness));
    const disc = this.discs.of(this.shades[atom], Math.round(near * NEARNESSES));
    this.pen.globalAlpha = alpha;
    for (const [left, top] of this.images(x, y)) this.pen.drawImage(disc, left - this.discs.half, top - this.discs.half, 2 * this.discs.half, 2 * this.discs.half);
  }

  // The atoms of the second run, as pale rings over those of the first.
  drawSecond() {
    this.pen.strokeStyle = getComputedStyle(this.canvas).color;
    this.pen.lineWidth = 1.2;
    for (const { alpha, x, y } of this.slab(this.second)) {
      this.pen.globalAlpha = SECOND * alpha;
      for (const [left, top] of this.images(x, y)) {
        this.pen.beginPath();
        this.pen.arc(left, top, this.radius, 0, 2 * Math.PI);
        this.pen.stroke();
      }
    }
  }

  images(x, y) {
    const near = (place) => [place, place < this.radius ? place + this.size : place > this.size - this.radius ? place - this.size : null];
    const all = near(x).flatMap((left) => near(y).map((top) => [left, top]));
    return all.filter(([left, top]) => left !== null && top !== null);
  }

  drawPull() {
    const { x, y, dx, dy } = this.pull;
    const length = Math.hypot(dx, dy);
    const pen = this.pen;
    pen.globalAlpha = 1;
    pen.strokeStyle = pen.fillStyle = getComputedStyle(this.canvas).color;
    pen.lineWidth = 2.5;
    pen.beginPath();
    pen.arc(x, y, this.radius + 2, 0, 2 * Math.PI);
    pen.moveTo(x, y);
    pen.lineTo(x + dx, y + dy);
    pen.stroke();
    if (length < 8) return;
    const [along, across] = [(10 * dx) / length, (10 * dy) / length];
    pen.beginPath();
    pen.moveTo(x + dx + along, y + dy + across);
    pen.lineTo(x + dx - 0.6 * across, y + dy + 0.6 * along);
    pen.lineTo(x + dx + 0.6 * across, y + dy - 0.6 * along);
    pen.fill();
  }

  hears() {
    const listen = (type, act) => this.canvas.addEventListener(type, act, { passive: false });
    listen("pointerdown", (event) => (event.pointerType === "touch" ? this.touch(event) : this.take(event)));
    listen("pointermove", (event) => this.move(event));
    listen("pointerup", () => this.letGo());
    listen("pointercancel", () => this.forget());
    for (const type of ["touchmove", "contextmenu"]) listen(type, (event) => this.held && event.preventDefault());
  }

  // A finger takes an atom if it stays for a while. Before, it may be on its way to scroll the page or to make it larger.
  touch(event) {
    this.forget();
    if (!event.isPrimary) return;
    const { pointerId, offsetX, offsetY } = event;
    const timer = setTimeout(() => this.take({ pointerId, offsetX, offsetY }), LONG_PRESS);
    this.press = { timer, left: offsetX, top: offsetY };
  }

  // The atom in front at a point of the canvas.
  atomAt(left, top) {
    const hits = this.slab().filter(({ x, y, alpha }) => alpha > 0.3 && this.images(x, y).some(([a, b]) => Math.hypot(a - left, b - top) <= this.radius + 2));
    return hits.at(-1);
  }

  take(event) {
    this.giveUp();
    if (!this.places) return;
    const hit = this.atomAt(event.offsetX, event.offsetY);
    if (!hit) return;
    this.canvas.setPointerCapture(event.pointerId);
    this.canvas.classList.add("holding");
    const away = ([x, y]) => Math.hypot(x - event.offsetX, y - event.offsetY);
    const [x, y] = this.images(hit.x, hit.y).sort((one, other) => away(one) - away(other))[0];
    this.pull = { atom: hit.atom, x, y, left: event.offsetX, top: event.offsetY, dx: 0, dy: 0 };
    this.draw();
  }

  move(event) {
    if (this.press && Math.hypot(event.offsetX - this.press.left, event.offsetY - this.press.top) > STILL) this.giveUp();
    if (!this.pull) return;
    const [dx, dy] = [event.offsetX - this.pull.left, event.offsetY - this.pull.top];
    const most = (STRONGEST_PULL / this.edge) * this.size;
    const share = Math.min(1, most / Math.max(1e-9, Math.hypot(dx, dy)));
    Object.assign(this.pull, { dx: dx * share, dy: dy * share });
    this.draw();
  }

  letGo() {
    this.giveUp();
    if (!this.pull) return;
    const { atom, dx, dy } = this.pull;
    this.forget();
    if (dx || dy) this.tug(atom, (dx / this.size) * this.edge, (-dy / this.size) * this.edge);
  }

  // Ends the wait for a finger to take an atom.
  giveUp() {
    clearTimeout(this.press?.timer);
    this.press = null;
  }

  forget() {
    this.giveUp();
    this.pull = null;
    this.canvas.classList.remove("holding");
    this.draw();
  }
}
