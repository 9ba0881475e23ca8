import type { Client } from "./index.js";

export * from "./index.js";

/** Connects to a server as a user, and returns a client when it is its turn. */
export function connectTo(host: string, port: number, user: string, token: string): Promise<Client>;

/** Begins a program, such as "bin/ljserve", for one user without sessions, and returns a client of it. Words set its quota. */
export function begin(program: string, ...words: string[]): Client;
