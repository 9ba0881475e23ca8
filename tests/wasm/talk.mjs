// The conversation of the static page with a program over pipes: node talk.mjs PROGRAM [MOST] < MESSAGES. The messages are a list in
// JSON, of which the answers are told, that to the page's begin first, and all commands that were asked, each with its body. It goes on in
// a new program when half of so many commands were answered.
import { readFileSync } from "node:fs";

import { begin } from "../../clients/javascript/src/node.js";
import { Program } from "../../packaging/page/asking.js";
import { Conversation } from "../../packaging/page/conversation.js";

const [, , name, most] = process.argv;
const program = new Program(begin(name));
const asked = [];
program.listeners.push(({ line, body }) => asked.push([line, body]));
const conversation = new Conversation(program, async () => begin(name), ["client talk.mjs"], most && Number(most));
const answers = [await conversation.begin()];
for (const message of JSON.parse(readFileSync(0))) answers.push(await conversation.answer(message));
program.client.close();
console.log(JSON.stringify({ answers, asked }));
