// The axes of a chart: its ranges, round numbers within them, and the rules and labels at these.

const LEFT = 3.6, RIGHT = 0.8, TOP = 0.5, BOTTOM = 1.7; // margins, in letters; that on the left may be wider
const MOST_MARKS = 5; // about so many labels along the bottom, if there is room

// Round numbers within a range, some three to five of them.
export function ticks(low, high, wanted = 4) {
  const rough = (high - low) / wanted || 1;
  const power = 10 ** Math.floor(Math.log10(rough));
  const step = power * [1, 2, 5, 10].find((factor) => factor * power >= rough * 0.999);
  const found = [];
  for (let k = Math.ceil(low / step - 1e-9); k * step <= high + step * 1e-9; k++) found.push(k * step);
  return found.map((value) => Number(value.toPrecision(12)));
}

// A number in few letters: 12,000, but 1.2e6.
export function label(value) {
  const isShort = value === 0 || (Math.abs(value) >= 1e-4 && Math.abs(value) < 1e6);
  const text = isShort ? value.toLocaleString("en", { maximumSignificantDigits: 12 }) : value.toExponential().replace("e+", "e");
  return text.replaceAll("-", "−");
}

export class Axes {
  constructor(canvas) {
    this.canvas = canvas;
    this.pen = canvas.getContext("2d");
  }

  get style() {
    return getComputedStyle(this.canvas);
  }

  // Makes the canvas as fine as the screen, takes the ranges along the bottom and the side, and draws what stands at them.
  // With `isLog` the values of the side are powers of ten.
  begin(across, values, isLog = false) {
    const scale = window.devicePixelRatio || 1;
    [this.width, this.height] = [this.canvas.clientWidth, this.canvas.clientHeight];
    const [wide, high] = [Math.round(this.width * scale), Math.round(this.height * scale)];
    if (this.canvas.width !== wide || this.canvas.height !== high) [this.canvas.width, this.canvas.height] = [wide, high];
    this.pen.setTransform(scale, 0, 0, scale, 0, 0);
    this.pen.clearRect(0, 0, this.width, this.height);
    this.letter = 0.78 * parseFloat(this.style.fontSize);
    this.pen.font = `${this.letter}px ${this.style.fontFamily}`;
    [this.top, this.bottom] = [TOP * this.letter, this.height - BOTTOM * this.letter];
    [this.across, this.values, this.isLog] = [across, values, isLog];
    this.makeRoom();
    this.drawMarks();
  }

  // Finds what has a label, and leaves room for the widest.
  makeRoom() {
    this.marks = ticks(...this.values, 3);
    if (this.isLog) this.marks = this.marks.filter(Number.isInteger);
    this.left = Math.max(LEFT * this.letter, this.widest(this.marks.map((mark) => this.valueLabel(mark))) + this.letter);
    this.right = this.width - RIGHT * this.letter;
    for (let wanted = MOST_MARKS; wanted > 0; wanted--) {
      this.acrossMarks = ticks(...this.across, wanted);
      if (this.acrossMarks.length * (this.widest(this.acrossMarks.map(label)) + 1.5 * this.letter) <= this.right - this.left) break;
    }
  }

  valueLabel(value) {
    return label(this.isLog ? 10 ** value : value);
  }

  widest(texts) {
    return Math.max(0, ...texts.map((text) => this.pen.measureText(text).width));
  }

  x(place) {
    return this.left + ((place - this.across[0]) / (this.across[1] - this.across[0])) * (this.right - this.left);
  }

  y(value) {
    const at = this.isLog ? Math.log10(value) : value;
    return this.top + ((this.values[1] - at) / (this.values[1] - this.values[0])) * (this.bottom - this.top);
  }

  drawMarks() {
    const pen = this.pen;
    pen.fillStyle = this.style.getPropertyValue("--soft");
    pen.strokeStyle = this.style.getPropertyValue("--line");
    pen.lineWidth = 1;
    pen.textAlign = "right";
    pen.textBaseline = "middle";
    for (const mark of this.marks) {
      const height = this.y(this.isLog ? 10 ** mark : mark);
      this.rule(this.left, height, this.right, height);
      pen.fillText(this.valueLabel(mark), this.left - 0.5 * this.letter, height);
    }
    pen.textAlign = "center";
    pen.textBaseline = "top";
    for (const mark of this.acrossMarks) {
      const half = this.widest([label(mark)]) / 2;
      pen.fillText(label(mark), Math.max(half, Math.min(this.x(mark), this.width - half)), this.bottom + 0.4 * this.letter);
    }
  }

  rule(left, top, right, bottom) {
    const [dx, dy] = left === right ? [0.5, 0] : [0, 0.5];
    this.pen.beginPath();
    this.pen.moveTo(Math.round(left) + dx, Math.round(top) + dy);
    this.pen.lineTo(Math.round(right) + dx, Math.round(bottom) + dy);
    this.pen.stroke();
  }
}
