// The conversation with the program: each question is answered in its turn.

import { Transport } from "./transport.js";

export class Talk {
  // `heard` is told each answer and what was asked for, `waits` what an answer waits for, and `ended` once that there will be no more,
  // and whether that is since the view has ended. `news` may be set to hear what is told unasked.
  constructor(heard, waits, ended) {
    this.news = () => {};
    this.waiting = [{ does: "load" }]; // the first message comes unasked
    this.transport = new Transport((answer) => {
      if (answer.news) return this.news(answer.news);
      waits(answer.waits ?? "");
      if (answer.waits) return;
      const asked = this.waiting.shift();
      asked?.resolve?.(answer);
      heard(answer, asked?.does);
    }, ended);
  }

  get isIdle() {
    return this.waiting.length === 0;
  }

  ask(question) {
    if (!this.transport.isOpen) return Promise.resolve({});
    return new Promise((resolve) => {
      this.waiting.push({ does: question.do, resolve });
      this.transport.send(question);
    });
  }
}
