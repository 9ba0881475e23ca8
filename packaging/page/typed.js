// A box for commands and a list of their replies, which the static page and that of a class have.

import { split } from "./commands.js";
import { onLanguage, text } from "./texts.js";

const MOST_SHOWN = 400; // commands and replies
const EACH = 150; // milliseconds at least between two changes of the list
const part = (name) => document.getElementById(name);

// The commands and replies that are shown. Of many that come at once the last ones are.
class Replies {
  constructor(list) {
    Object.assign(this, { list, rows: [], timer: null });
  }

  add(text, kind) {
    const row = document.createElement("span");
    [row.textContent, row.className] = [text, kind];
    this.rows.push(row);
    this.timer ??= setTimeout(() => this.draw(), this.rows.length > 2 * MOST_SHOWN ? 0 : EACH);
  }

  draw() {
    clearTimeout(this.timer);
    this.timer = null;
    this.list.append(...this.rows.splice(0).slice(-MOST_SHOWN));
    while (this.list.childElementCount > MOST_SHOWN) this.list.firstChild.remove();
    this.list.scrollTop = this.list.scrollHeight;
  }
}

export class Typed {
  // `talk` is that of the page, `told` says how it went, `answered` is told each answer, and `takesFiles` says whether a load may name a file.
  constructor(talk, told, answered = () => {}, takesFiles = false) {
    Object.assign(this, { talk, told, answered, takesFiles, isTyped: false, replies: new Replies(part("replies")) });
    part("ask").addEventListener("submit", (event) => (event.preventDefault(), this.send()));
    part("commands").addEventListener("keydown", ({ key, ctrlKey, metaKey }) => key === "Enter" && (ctrlKey || metaKey) && !part("send").disabled && this.send());
  }

  // Offers examples by the keys of their texts, of which the first is shown.
  offer(examples) {
    const select = part("example");
    select.append(...Object.keys(examples).map((key) => new Option(text(key), key)));
    onLanguage(() => [...select.options].forEach((option) => (option.text = text(option.value))));
    select.onchange = () => (part("commands").value = examples[select.value]);
    select.onchange();
  }

  // Shows what a button has sent, and the beginning of the reply.
  hear({ line, lines: [first, ...rest] }) {
    if (this.isTyped || !part("all").checked) return;
    this.replies.add(`${line}\n`, "sent");
    this.replies.add(`${first}\n${rest.length ? `${text("moreLines", { count: rest.length })}\n` : ""}`, first.startsWith("ERR ") ? "refused" : "reply");
  }

  // Sends what is in the box, one command after the other.
  async send() {
    part("send").disabled = true;
    const start = performance.now();
    let count = 0;
    for (const { line, body } of split(part("commands").value, this.takesFiles)) {
      this.replies.add(`${line}\n`, "sent");
      this.isTyped = true;
      const answer = await this.talk.ask({ do: "commands", commands: [[line, body]] });
      this.isTyped = false;
      const [lines] = answer.told ?? [[answer.error ?? text("programHasEnded")]];
      const isRefused = !answer.told || lines.some((each) => /^(ERR |not sent)/.test(each));
      this.replies.add(lines.map((each) => `${each}\n`).join(""), isRefused ? "refused" : "reply");
      this.answered(answer);
      count += 1;
      if (!answer.told) break;
    }
    this.replies.draw();
    this.told(text("answered", { count, ms: Math.round(performance.now() - start) }));
    const { ended } = await this.talk.ask({ do: "frame", steps: 0 }); // what is shown now
    part("send").disabled = Boolean(ended);
  }
}
