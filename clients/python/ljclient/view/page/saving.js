// What is saved from the page: the rows of its history as comma-separated values, and a picture of what is shown.

const COLUMNS = ["direction", "distance", "kinetic", "potential", "total", "temperature", "apart"];
const UNITS = { distance: "sigma", kinetic: "epsilon", potential: "epsilon", total: "epsilon", apart: "sigma" };
const MARGIN = 16; // of a picture, and its gaps, in pixels
const CAPTION = 20;

// The rows of a history, with a line of names and units before them. What is not known is left empty.
export function csvOf(history, clock, temperatureUnit) {
  const unit = { ...UNITS, temperature: temperatureUnit };
  const names = COLUMNS.map((name) => (unit[name] ? `${name} (${unit[name]})` : name));
  const head = ["step", `time (${clock.unit === "τ" ? "tau" : clock.unit})`, ...names];
  const lines = history.rows.map((row) => [row.step, row.step * clock.per, ...COLUMNS.map((name) => row[name] ?? "")]);
  return [head, ...lines].map((parts) => `${parts.join(",")}\n`).join("");
}

// A picture of the box with the charts beside it, each under its caption, as they are on the page.
export function pictureOf(box, figures, title) {
  const scale = window.devicePixelRatio || 1;
  const style = getComputedStyle(document.body);
  const wide = box.clientWidth;
  const charts = figures.map((figure) => ({ canvas: figure.querySelector("canvas"), text: figure.querySelector("figcaption").innerText.replaceAll("\n", " ") }));
  const chartWidth = Math.max(0, ...charts.map(({ canvas }) => canvas.clientWidth));
  const high = charts.reduce((sum, { canvas }) => sum + CAPTION + canvas.clientHeight + MARGIN, 0);
  const picture = document.createElement("canvas");
  picture.width = scale * (wide + (charts.length ? chartWidth + MARGIN : 0) + 2 * MARGIN);
  picture.height = scale * (Math.max(wide, high) + CAPTION + 3 * MARGIN);
  const pen = picture.getContext("2d");
  pen.scale(scale, scale);
  pen.fillStyle = style.backgroundColor;
  pen.fillRect(0, 0, picture.width, picture.height);
  pen.fillStyle = style.color;
  pen.font = `14px ${style.fontFamily}`;
  pen.textBaseline = "top";
  pen.fillText(title, MARGIN, MARGIN);
  const top = 2 * MARGIN + CAPTION;
  pen.drawImage(box, MARGIN, top, wide, wide);
  let at = top;
  for (const { canvas, text } of charts) {
    pen.fillText(text, wide + 2 * MARGIN, at);
    pen.drawImage(canvas, wide + 2 * MARGIN, at + CAPTION, canvas.clientWidth, canvas.clientHeight);
    at += CAPTION + canvas.clientHeight + MARGIN;
  }
  return new Promise((done) => picture.toBlob(done, "image/png"));
}

// Has the browser save a file.
export function download(name, blob) {
  const link = document.createElement("a");
  link.href = URL.createObjectURL(blob);
  link.download = name;
  link.click();
  setTimeout(() => URL.revokeObjectURL(link.href), 60000);
}
