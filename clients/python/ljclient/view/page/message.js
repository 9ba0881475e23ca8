// What the page says, one message at a time: each is shown for as long as what it was said of stays the same.

export class Message {
  // `present` tells what is shown now: values by their names.
  constructor(element, present) {
    Object.assign(this, { element, present, said: [] });
  }

  get isSaid() {
    return this.element.textContent !== "";
  }

  // `tell` returns the text in the language that is chosen; a text alone is the program's own, which is English. `names` are those of the
  // values that a message is said of. One without a name stays until another is said.
  say(tell, names, kind = "") {
    const now = this.present();
    this.said = names.map((name) => [name, now[name]]);
    this.tell = typeof tell === "function" ? tell : null;
    if (tell && !this.tell) this.element.lang = "en";
    else this.element.removeAttribute("lang");
    this.element.textContent = this.tell ? tell() : tell;
    this.element.className = `message ${kind}`;
  }

  // Says it again, when another language is chosen.
  again() {
    if (this.tell) this.element.textContent = this.tell();
  }

  // Takes the message away if a value that it was said of has changed.
  keep() {
    const now = this.present();
    if (this.said.some(([name, value]) => now[name] !== value)) this.say("", []);
  }
}
