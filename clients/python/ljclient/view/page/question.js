// What has to be said before there are atoms: the user's token, or what a session was loaded with.

import { text } from "./texts.js";

const TOKEN = { name: "token", label: "token", type: "password" };
const SCALE = [
  { name: "edge", label: "edge" },
  { name: "sigma", label: "sigma" },
  { name: "h", label: "stepFactor" },
];
const FILE = [
  { name: "edge", label: "edgeOfFile" },
  { name: "sigma", label: "sigmaOfFile" },
  { name: "epsilon", label: "epsilonOfFile" },
  { name: "mass", label: "massOfFile" },
  { name: "dt", label: "stepOfFile" },
  { name: "temperature", label: "temperatureOfFile" },
];
// What each question says, its fields, and what its answer asks of the program.
const QUESTIONS = {
  token: { key: "tokenAsked", fields: [TOKEN], wish: () => ({ do: "token" }) },
  slip: { key: "slipAsked", fields: [{ name: "name", label: "name" }, TOKEN], wish: () => ({ do: "enter" }) },
  file: { key: "fileAsked", fields: FILE, wish: ({ name }) => ({ do: "load", file: name }) },
  scale: { key: "scaleAsked", fields: SCALE, wish: ({ session }) => ({ do: "load", session }) },
};

export class Question {
  // `say` is told what is to be asked of the program.
  constructor(form, say) {
    Object.assign(this, { form, say, fields: form.querySelector(".fields"), text: form.querySelector("p"), why: form.querySelector(".message") });
    this.why.lang = "en"; // what is wrong is the program's own word
    this.leave = form.querySelector(".leave"); // where there are atoms already
    this.leave.addEventListener("click", () => this.hide());
    form.addEventListener("submit", (event) => {
      event.preventDefault();
      if (this.asked) this.say({ ...this.asked, ...Object.fromEntries(new FormData(form)) });
    });
  }

  // Shows what an answer of the program asks for.
  show(answer) {
    this.form.hidden = false;
    this.why.textContent = answer.why;
    this.leave.hidden = answer.asks !== "file";
    const { fields, wish } = QUESTIONS[answer.asks];
    this.answer = answer;
    this.asked = wish(answer);
    this.fill(fields, answer.known ?? { edge: answer.edge });
    this.again();
    this.fields.querySelector("input").focus();
  }

  // Asks in the language that is chosen.
  again() {
    if (!this.asked) return;
    this.text.textContent = text(QUESTIONS[this.answer.asks].key, this.answer);
    for (const label of this.fields.children) label.firstChild.textContent = `${text(label.dataset.key)} `;
  }

  // The fields, with what is known already. What was typed last is left where only the reason has changed.
  fill(fields, known) {
    const typed = Object.fromEntries(new FormData(this.form));
    this.fields.replaceChildren(...fields.map(({ name, label, type = "text" }) => {
      const [box, input] = [document.createElement("label"), document.createElement("input")];
      Object.assign(input, { name, type, required: true, autocomplete: "off", spellcheck: false });
      input.value = type === "password" ? "" : typed[name] ?? known[name] ?? "";
      box.dataset.key = label;
      box.append("", input);
      return box;
    }));
  }

  hide() {
    this.form.hidden = true;
    this.asked = null;
    this.fields.replaceChildren();
  }
}
