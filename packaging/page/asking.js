// The commands of the page and their replies. Who listens hears of each, whoever has asked.

import { MEANINGS } from "./refusals.js";

const MOST_SHOWN = 60; // letters of a command

const shown = (line) => (line.length <= MOST_SHOWN ? line : `${line.slice(0, MOST_SHOWN - 3)}...`);

// A refusal, with what it means.
export class Refused extends Error {
  constructor(line, first) {
    const [, number, name, , at] = first.split(" ");
    const meaning = MEANINGS[Number(number)];
    super(`ERR ${number} ${name}${at ? ` line ${at}` : ""}${meaning ? `: ${meaning}` : ""} (asked: ${shown(line)})`);
    Object.assign(this, { number: Number(number), first });
  }
}

export class Program {
  // `client` is one of `ljclient`, which has `send`.
  constructor(client) {
    Object.assign(this, { client, listeners: [], asked: 0, isOpen: true });
  }

  // Goes on with another program, since each answers so many commands.
  become(client) {
    this.client.close();
    Object.assign(this, { client, asked: 0 });
  }

  // The lines of the reply to a command. A refusal is thrown.
  async ask(line, body = "") {
    return (await this.askAll([[line, body]]))[0];
  }

  // The lines of the replies to many commands, which are sent at once: each is a line, or a line and its body. When all are answered
  // the first refusal is thrown. Who listens is told whether they are of a frame, which is one of many.
  async askAll(commands, isOfFrame = false) {
    const all = commands.map((each) => (Array.isArray(each) ? each : [each, ""]));
    this.asked += all.length;
    const answers = await Promise.all(all.map(([line, body]) => this.answerTo(line, body)));
    answers.forEach((lines, place) => this.tell({ line: all[place][0], body: all[place][1], lines, isOfFrame }));
    const refused = answers.findIndex(([first]) => first.startsWith("ERR "));
    if (refused >= 0) throw new Refused(all[refused][0], answers[refused][0]);
    return answers;
  }

  async answerTo(line, body) {
    try {
      return (await this.client.send(line, body)).split("\n").slice(0, -1);
    } catch (error) {
      if (error.message.startsWith("ERR ")) return [error.message];
      this.isOpen = false;
      throw error;
    }
  }

  tell(answer) {
    for (const listener of this.listeners) listener(answer);
  }
}
