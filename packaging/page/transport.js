// The way from the page to its program, which runs in the page itself, in a thread of its own. It stands in place of the view's WebSocket.

import { Engine } from "./ljclient/index.js";

import { Program } from "./asking.js";
import { Conversation } from "./conversation.js";
import { prepare } from "./isolation.js";
import { moduleHere } from "./modules.js";

export class Transport {
  // `heard` is told each message of the program's side.
  constructor(heard) {
    this.heard = heard;
    this.isOpen = true;
    this.running = this.begin(); // the program, with the name and the sum of its module
    this.answered = this.running.then(() => this.conversation.begin()).then(heard, (error) => this.fail(error));
  }

  async begin() {
    await prepare();
    const { module, name, sum } = await moduleHere();
    const program = new Program(await Engine.open(module));
    this.next = Engine.open(module); // its thread is loaded while there is a network
    const commit = document.getElementById("commit").textContent;
    this.conversation = new Conversation(program, () => this.renew(module), [`client the page of ljserve, commit ${commit}`, `program ${name}, SHA-256 ${sum}`]);
    return { program, name, sum };
  }

  // A client of a new program, which has answered.
  async renew(module) {
    const opening = this.next;
    this.next = Engine.open(module);
    this.next.catch(() => {}); // is told when it is needed
    const client = await opening;
    await client.send("LIST");
    return client;
  }

  fail({ message }) {
    this.isOpen = false;
    this.heard({ error: `The program cannot run here: ${message}.`, ended: true });
  }

  send(message) {
    const answered = this.answered.then(() => this.conversation.answer(message)).then(this.heard);
    this.answered = answered.catch(reportError); // what is asked next is answered too
  }
}
