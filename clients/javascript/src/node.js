// Clients in Node: of a server over TCP, and of a program of one's own over its pipes.
import { spawn } from "node:child_process";
import { connect } from "node:net";

import { Client } from "./client.js";

export * from "./index.js";

const ENDED = "the connection has ended";

/** A client over two streams of Node. */
function clientOver(input, output, close) {
  const client = new Client((bytes) => input.write(bytes), close);
  output.on("data", (bytes) => client.hear(bytes));
  input.on("error", () => {}); // a program that has ended may still have said something
  output.on("error", () => client.lose(ENDED));
  output.on("close", () => client.lose(ENDED));
  return client;
}

/** Connects to a server as a user, and returns a client when it is its turn. */
export async function connectTo(host, port, user, token) {
  const socket = connect(port, host).setNoDelay();
  const client = clientOver(socket, socket, () => socket.destroy());
  await client.send(`HELLO ${user} ${token}`);
  return client;
}

/** Begins a program, such as "bin/ljserve", for one user without sessions, and returns a client of it. */
export function begin(program, ...words) {
  const { LJSERVE_TOKEN, ...env } = process.env; // the program needs no token
  const child = spawn(program, ["run", ...words], { env, stdio: ["pipe", "pipe", "inherit"] });
  const client = clientOver(child.stdin, child.stdout, () => child.kill());
  child.on("error", ({ message }) => client.lose(message));
  return client;
}
