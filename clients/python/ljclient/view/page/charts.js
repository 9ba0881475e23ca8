// Lines over the step number, or over time. The way back lies over the way there, if it is the same.

import { Axes, label, ticks } from "./axes.js";
import { stepText } from "./clock.js";

export { label, ticks };

const MOST_POINTS = 4000;
const BY_KEY = { ArrowLeft: -1, ArrowDown: -1, ArrowRight: 1, ArrowUp: 1, PageDown: -20, PageUp: 20 }; // rows

// What was seen: a row for each frame, with the step, the direction, whether it follows the row before, and the values.
// Of a long history only some rows are kept, all equally many frames apart, and those at which a line begins, turns or ends.
export class History {
  constructor() {
    this.rows = [];
    this.added = 0;
    this.apart = 1;
  }

  get last() {
    return this.rows.at(-1);
  }

  add(row) {
    this.rows.push({ ...row, number: this.added++ });
    if (!this.stays(this.rows.length - 2)) this.rows.splice(-2, 1);
    if (this.rows.length <= MOST_POINTS) return;
    this.apart *= 2;
    this.rows = this.rows.filter((_, place) => this.stays(place));
  }

  stays(place) {
    return this.rows[place]?.number % this.apart === 0 || !this.joins(place) || !this.joins(place + 1);
  }

  // Whether a row goes on from the one before in the same direction.
  joins(place) {
    const [before, row] = [this.rows[place - 1], this.rows[place]];
    return Boolean(before && row && row.follows && row.direction === before.direction);
  }
}

export class Chart extends Axes {
  // `lines` are names of values, each with the colour that it has: a custom property of the page, by direction.
  // `least` is a range of values that is shown in any case. With `isLog` values are drawn by their powers of ten.
  constructor(canvas, lines, least, isLog = false) {
    super(canvas);
    Object.assign(this, { lines, least, drawsPowers: isLog, pointed: null, rows: [], moved: () => {} });
    this.output = canvas.parentElement?.querySelector(".at"); // where the row at the pointer is told
    canvas.addEventListener("pointermove", ({ offsetX, offsetY }) => this.point({ left: offsetX, top: offsetY }));
    for (const type of ["pointerleave", "pointercancel", "blur"]) canvas.addEventListener(type, () => this.point(null));
    canvas.addEventListener("focus", () => this.name(this.rows.length - 1));
    canvas.addEventListener("keydown", (event) => this.press(event));
  }

  // Takes in where the pointer is.
  point(place) {
    this.pointed = place;
    this.moved();
  }

  // Goes from row to row by the keyboard.
  press(event) {
    const by = BY_KEY[event.key];
    if (!by || !this.rows.length) return;
    event.preventDefault();
    const found = this.rows.indexOf(this.pointed?.row);
    const last = this.rows.length - 1;
    const place = Math.max(0, Math.min(last, (found < 0 ? last : found) + by));
    this.point({ row: this.rows[place] });
    this.name(place);
  }

  // Tells a screen reader the values of a row. While it plays they change too often to be told.
  name(place) {
    const row = this.rows[place];
    if (!row) return;
    const values = { "aria-valuemin": 0, "aria-valuemax": this.rows.length - 1, "aria-valuenow": place, "aria-valuetext": this.rowText(row) };
    for (const [name, value] of Object.entries(values)) this.canvas.setAttribute(name, value);
  }

  // Draws all rows, over the steps or, with `inTime`, over the time of a clock.
  draw(history, clock = null, inTime = false) {
    const rows = history.rows;
    if (!rows.length || !this.canvas.clientWidth) return;
    Object.assign(this, { rows, clock });
    if (document.activeElement !== this.canvas) this.name(rows.length - 1);
    this.per = clock && inTime ? clock.per : 1;
    this.begin(this.stepsOf(rows), this.valuesOf(rows), this.drawsPowers);
    for (const { value, colour } of this.lines) {
      this.line(rows, value, (direction) => this.style.getPropertyValue(colour(direction)));
      if (this.has(history.last, value)) this.dot(history.last, value, this.style.getPropertyValue(colour(history.last.direction)));
    }
    if (this.output) this.tell(this.pointed && (this.pointed.row ?? this.nearest(rows)));
  }

  // The row nearest to the pointer: along the bottom, and where several are as near, along the side.
  nearest(rows) {
    const far = (row) => {
      const heights = this.lines.filter(({ value }) => this.has(row, value)).map(({ value }) => Math.abs(this.y(row[value]) - this.pointed.top));
      return Math.abs(this.x(row.step * this.per) - this.pointed.left) + Math.min(...heights) / 50;
    };
    let [found, least] = [null, Infinity];
    for (const row of rows) {
      const distance = far(row);
      if (distance < least) [found, least] = [row, distance];
    }
    return found;
  }

  // Tells the step and the values of a row, and marks it.
  tell(row) {
    this.output.textContent = row ? this.rowText(row) : "";
    if (!row) return;
    const across = this.x(row.step * this.per);
    this.pen.strokeStyle = this.style.getPropertyValue("--soft");
    this.pen.lineWidth = 1;
    this.rule(across, this.top, across, this.bottom);
    for (const { value } of this.lines) if (this.has(row, value)) this.dot(row, value, this.style.getPropertyValue("--ink"));
  }

  rowText(row) {
    return `${stepText(row.step, this.clock)}: ${this.valuesText(row)}`;
  }

  valuesText(row) {
    const text = (value) => label(Number(row[value].toPrecision(4)));
    const known = this.lines.filter(({ value }) => this.has(row, value));
    return known.map(({ value, unit }) => `${text(value)}${unit ? ` ${unit}` : ""}`).join(", ");
  }

  // Whether a row has a value that can be drawn: of what is drawn by powers of ten, one above 0.
  has(row, value) {
    return Number.isFinite(row[value]) && (!this.drawsPowers || row[value] > 0);
  }

  // From the first frame on, which of a session at a server may be any, and at least over 100 steps.
  stepsOf(rows) {
    let [low, high] = [rows[0].step, rows[0].step + 100];
    for (const { step } of rows) [low, high] = [Math.min(low, step), Math.max(high, step)];
    return [low * this.per, high * this.per];
  }

  valuesOf(rows) {
    let [low, high] = this.least;
    for (const row of rows) {
      for (const { value } of this.lines) {
        if (!this.has(row, value)) continue;
        const at = this.drawsPowers ? Math.log10(row[value]) : row[value];
        [low, high] = [Math.min(low, at), Math.max(high, at)];
      }
    }
    return [this.drawsPowers ? Math.floor(low) : low, high + 0.06 * (high - low)];
  }

  // One stroke for each stretch in one direction. The way there is broad and pale, so that the way back lies within it.
  line(rows, value, colour) {
    const pen = this.pen;
    pen.lineJoin = "round";
    pen.beginPath();
    let before = null;
    for (const row of rows) {
      if (!this.has(row, value)) {
        before = null;
        continue;
      }
      const begins = !before || !row.follows;
      if (begins || row.direction !== before.direction) {
        pen.stroke();
        pen.beginPath();
        pen.strokeStyle = colour(row.direction);
        [pen.lineWidth, pen.globalAlpha] = row.direction > 0 ? [6, 0.45] : [1.8, 1];
        const from = begins ? row : before;
        pen.moveTo(this.x(from.step * this.per), this.y(from[value]));
      }
      pen.lineTo(this.x(row.step * this.per), this.y(row[value]));
      before = row;
    }
    pen.stroke();
    pen.beginPath();
    pen.globalAlpha = 1;
  }

  dot(row, value, colour) {
    this.pen.beginPath();
    this.pen.fillStyle = colour;
    this.pen.arc(this.x(row.step * this.per), this.y(row[value]), 4, 0, 2 * Math.PI);
    this.pen.fill();
  }
}
