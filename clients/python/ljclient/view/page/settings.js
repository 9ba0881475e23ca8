// What atoms are begun anew with: how many there are, their temperature, and how long a step is.

export class Settings {
  // `begin` is told what atoms shall be begun with.
  constructor(form, begin) {
    this.form = form;
    form.addEventListener("submit", (event) => {
      event.preventDefault();
      const { atoms, temperature, dt } = form.elements;
      begin({ ...this.typed({ temperature, dt }), atoms: Number(atoms.value) });
    });
  }

  // The numbers that were typed. One that was left as it is shown stands for the number that was rounded to it.
  typed(fields) {
    const changed = Object.entries(fields).filter(([name, field]) => field.value !== shown(this.settings[name]));
    const { temperature, dt } = this.settings;
    return { temperature, dt, ...Object.fromEntries(changed.map(([name, field]) => [name, Number(field.value)])) };
  }

  // Shows what the atoms of a scene were begun with. A session of the user's own is not begun anew.
  show({ settings, in_kelvin, dt }) {
    this.form.hidden = !settings;
    if (!settings) return;
    this.settings = settings;
    const { atoms, temperature } = this.form.elements;
    atoms.replaceChildren(...settings.sizes.map((size) => new Option(size.toLocaleString("en"), size, false, size === settings.atoms)));
    atoms.disabled = settings.sizes.length < 2;
    temperature.value = shown(settings.temperature);
    this.form.elements.dt.value = shown(settings.dt);
    this.form.querySelector(".of-temperature").textContent = in_kelvin ? "K" : "ε/k";
    this.form.querySelector(".of-dt").textContent = dt === null ? "τ" : "fs";
  }
}

const shown = (number) => String(Number(number.toPrecision(4)));
