// Charts of what the atoms of a frame tell: the distribution of their speeds, and of their distances.

import { Axes, label } from "./axes.js";
import { maxwell, radial, shares, speeds } from "./measures.js";
import { text } from "./texts.js";

const OLD = 0.8; // the share that earlier frames keep while time goes on
const BINS_OF_SPEEDS = 30;
const WIDTH_OF_RADIAL = 0.05; // in sigma
const EACH = 200; // milliseconds at least between two frames that are looked at
const SHARE = 5; // and so many times what it took to look at the last one

// A mean of bins over the frames that were looked at, of which later ones count more.
class Mean {
  take(bins, isNew) {
    const old = !isNew && this.bins?.length === bins.length ? this.bins : bins;
    this.bins = bins.map((value, k) => OLD * old[k] + (1 - OLD) * value);
  }
}

class Profile extends Axes {
  constructor(canvas) {
    super(canvas);
    this.mean = new Mean();
    this.due = 0;
  }

  get isShown() {
    return this.canvas.clientWidth > 0;
  }

  // Whether a frame shall be looked at: not more often than it can be read, nor than there is time for.
  isDue(now) {
    return this.isShown && now >= this.due;
  }

  // Takes in a frame by what it `tells`, and draws it.
  look(tells, isNew) {
    const begun = performance.now();
    this.mean.take(tells(), isNew);
    const ended = performance.now();
    this.due = ended + Math.max(EACH, SHARE * (ended - begun));
  }

  // Bars, from 0 on, and a curve over them if there is one.
  bars(bins, width, colour, curve, least) {
    let highest = least;
    for (const value of bins) highest = Math.max(highest, value);
    this.begin([0, bins.length * width], [0, 1.08 * highest]);
    this.pen.fillStyle = this.style.getPropertyValue(colour);
    bins.forEach((value, k) => {
      const [left, right] = [this.x(k * width), this.x((k + 1) * width)];
      this.pen.fillRect(left, this.y(value), Math.max(1, right - left - 0.5), this.y(0) - this.y(value));
    });
    if (curve) this.curve(curve, bins.length * width);
  }

  // Tells a screen reader where the bars are highest, by a text that has the place in the middle of a bin, and its value.
  describe(bins, width, key, values) {
    const highest = bins.reduce((found, value, k) => (value > bins[found] ? k : found), 0);
    const short = (number) => label(Number(number.toPrecision(3)));
    this.canvas.setAttribute("aria-description", text(key, values(short((highest + 0.5) * width), short(bins[highest]))));
  }

  curve(of, most) {
    this.pen.beginPath();
    this.pen.strokeStyle = this.style.getPropertyValue("--ink");
    this.pen.lineWidth = 1.8;
    for (let k = 0; k <= 100; k++) this.pen.lineTo(this.x((k * most) / 100), this.y(of((k * most) / 100)));
    this.pen.stroke();
  }
}

// The distribution of speeds, beside that of Maxwell and Boltzmann at this temperature. `unit` is that of speeds along the bottom.
export class Speeds extends Profile {
  take(places, before, scene, temperature, isNew) {
    if (isNew || !this.most || temperature > 2 * this.warmest) [this.most, this.warmest] = [5 * Math.sqrt(Math.max(temperature, 0.01)), Math.max(temperature, 0.01)];
    const widthOfBin = this.most / BINS_OF_SPEEDS;
    this.look(() => shares(speeds(places, before, scene), widthOfBin, BINS_OF_SPEEDS), isNew);
    Object.assign(this, { widthOfBin, temperature, unit: scene.speed ?? 1 });
  }

  draw() {
    if (!this.mean.bins || !this.isShown) return;
    const { unit, widthOfBin, temperature } = this;
    const bins = this.mean.bins.map((share) => share / unit);
    this.bars(bins, widthOfBin * unit, "--speeds", (speed) => maxwell(speed / unit, temperature) / unit, 0);
    this.describe(bins, widthOfBin * unit, "speedsPeak", (speed) => ({ speed, unit: unit === 1 ? "σ/τ" : "m/s" }));
  }
}

// The radial distribution function.
export class Radial extends Profile {
  take(places, { edge }, isNew) {
    this.look(() => radial(places, edge, WIDTH_OF_RADIAL), isNew);
  }

  draw() {
    if (!this.mean.bins || !this.isShown) return;
    this.bars(this.mean.bins, WIDTH_OF_RADIAL, "--radial", null, 2);
    this.describe(this.mean.bins, WIDTH_OF_RADIAL, "radialPeak", (distance, value) => ({ distance, value }));
    this.pen.strokeStyle = this.style.getPropertyValue("--ink");
    this.pen.lineWidth = 1;
    this.rule(this.left, this.y(1), this.right, this.y(1));
  }
}
