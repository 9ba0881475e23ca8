// A look on at one student: all sessions with their pictures, and the last commands with their replies, from what the class has heard.

import { Picture } from "./picture.js";
import { made, nameOf, sessionOf } from "./rows.js";

const part = (name) => document.getElementById(name);

// A command and its reply.
function spoken([command, reply]) {
  return made("li", "", made("code", "", command), made("pre", reply[0]?.startsWith("ERR ") ? "refused" : "", reply.join("\n")));
}

export class LookOn {
  // `ask` tells the class who is looked at: the name here, or nobody.
  constructor(dialog, ask) {
    Object.assign(this, { dialog, ask, name: "", told: "" });
    this.pictures = new Map(); // by the numbers of sessions
    part("look-end").onclick = () => dialog.close();
    dialog.addEventListener("click", (event) => event.target === dialog && dialog.close());
    dialog.addEventListener("close", () => this.end());
  }

  begin(name) {
    Object.assign(this, { name, told: "" });
    part("look-name").textContent = name;
    for (const place of ["look-sessions", "look-talk"]) part(place).replaceChildren();
    this.pictures.clear();
    this.dialog.showModal();
    this.ask();
  }

  end() {
    this.name = "";
    this.ask();
  }

  // Shows the sessions of a student, with the pictures that there are.
  show({ name, sessions }, pictures) {
    const told = JSON.stringify(sessions);
    if (told !== this.told) part("look-sessions").replaceChildren(...sessions.map((session) => this.place(session)));
    if (!sessions.length) part("look-sessions").textContent = "There are no sessions.";
    this.told = told;
    for (const session of sessions) this.pictures.get(session.id)?.show(pictures.get(session.id), `${nameOf(session)} of ${name}`);
  }

  // A session with a place for its picture.
  place(session) {
    if (!this.pictures.has(session.id)) this.pictures.set(session.id, new Picture("large"));
    return made("section", "", sessionOf(session), this.pictures.get(session.id).element);
  }

  // Shows the last commands, the latest first.
  hear({ talk }) {
    part("look-talk").replaceChildren(...talk.reverse().map(spoken));
    part("look-none").hidden = talk.length > 0;
  }

  tell() {
    for (const picture of this.pictures.values()) picture.tell();
  }

  draw() {
    for (const picture of this.pictures.values()) picture.draw();
  }
}
