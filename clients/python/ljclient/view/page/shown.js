// Which charts are shown: each has a box to tick.

export class ShownCharts {
  // `changed` is told when a chart is shown or hidden.
  constructor(list, changed) {
    this.boxes = new Map();
    for (const input of list.querySelectorAll("input")) {
      this.boxes.set(input.value, input);
      input.addEventListener("change", () => (this.apply(), changed()));
    }
    this.apply();
  }

  apply() {
    for (const [name, input] of this.boxes) document.getElementById(name).hidden = !input.checked;
  }

  // The charts that are shown, by their names.
  get names() {
    return [...this.boxes].filter(([, input]) => input.checked).map(([name]) => name.replace("of-", ""));
  }

  // Shows these charts, and no others.
  show(names) {
    for (const [name, input] of this.boxes) input.checked = names.includes(name.replace("of-", ""));
    this.apply();
  }

  // Shows a chart, or hides it.
  set(name, on) {
    this.boxes.get(name).checked = on;
    this.apply();
  }
}
