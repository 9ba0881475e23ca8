#!/usr/bin/env node
// A small client in JavaScript: runs the atoms of an XYZ file there and back, over TCP or over the pipes of a program.
//
// usage: small_client.mjs HOST:PORT NAME FILE.xyz EDGE SIGMA STEPFACTOR STEPS     a server; LJSERVE_TOKEN has the token
//        small_client.mjs PROGRAM FILE.xyz EDGE SIGMA STEPFACTOR STEPS            such as bin/ljserve
//
// It was written from docs/PROTOCOL.md, and needs Node 18 or later alone. The status is 1 if something is refused or lost.
import { spawn } from 'node:child_process';
import { readFile } from 'node:fs/promises';
import { connect } from 'node:net';

const LOST = 'the connection has ended';

/** Commands, and their replies, which come in the order of the commands. The next command may be sent before a reply is there. */
class Client {
  #input; #waiting = []; #partial = ''; #lines = []; #lost = '';

  constructor(input, output) {
    this.#input = input;
    output.setEncoding('latin1');
    output.on('data', (text) => this.#hear(text));
    input.on('error', () => {}); // a program that has ended may still have said something
    output.on('error', ({ syscall, message }) => this.#end(['read', 'write'].includes(syscall) ? LOST : message));
    output.on('close', () => this.#end(LOST));
  }

  /** Sends a command, with its body if it has one. Gives its reply: the first line, and as many more as that one says. */
  ask(line, body = '') {
    return new Promise((resolve, reject) => {
      if (this.#lost) return reject(new Error(this.#lost));
      this.#waiting.push({ resolve, reject });
      this.#input.write(`${line}\n`);
      if (body.length) this.#input.write(body);
    });
  }

  /** Takes in what was read, which may end anywhere. Node reads while it writes, so neither side waits for the other. */
  #hear(text) {
    const lines = (this.#partial + text).split('\n');
    this.#partial = lines.pop();
    for (const line of lines) {
      this.#lines.push(line);
      if (this.#lines.length > linesBehind(this.#lines[0])) this.#answer(this.#lines.splice(0));
    }
  }

  #answer(lines) {
    const { resolve, reject } = this.#waiting.shift() ?? {};
    // What is printed here is for a terminal, which heeds other bytes.
    if (lines.some((line) => /[^ -~]/.test(line))) reject?.(new Error('a reply is no text of the protocol'));
    else if (lines[0].startsWith('ERR ')) reject?.(new Error(lines[0]));
    else resolve?.(lines);
  }

  #end(cause) {
    this.#lost ||= cause;
    for (const { reject } of this.#waiting.splice(0)) reject(new Error(this.#lost));
  }
}

/** How many lines follow the first line of a reply. */
function linesBehind(first) {
  return /^OK (DUMP|LIST) /.test(first) ? Number(first.split(' ').at(-1)) : 0;
}

/** A client of a server, when it is its turn. */
async function clientOfServer(address, name) {
  const [, host, port] = /^\[?(.+?)\]?:(\d+)$/.exec(address) ?? stop(`${address} is no HOST:PORT`);
  const token = process.env.LJSERVE_TOKEN ?? stop('LJSERVE_TOKEN has no token');
  const socket = connect(Number(port), host).setNoDelay();
  const client = new Client(socket, socket);
  await client.ask(`HELLO ${name} ${token}`);
  return client;
}

/** A client of a program of its own. */
function clientOfProgram(program) {
  const { LJSERVE_TOKEN, ...env } = process.env; // the program needs no token
  const child = spawn(program, ['run'], { env, stdio: ['pipe', 'pipe', 'inherit'] });
  child.on('error', (error) => child.stdout.destroy(error));
  return new Client(child.stdin, child.stdout);
}

/** The places of all atoms. They are below 2^32, so a number has room for them. */
async function places(client, atoms) {
  const replies = await Promise.all(Array.from({ length: atoms }, (_, atom) => client.ask(`SHOW run ${atom}`)));
  return replies.map(([line]) => line.split(' ').slice(5).map(Number));
}

async function thereAndBack(client, text, edge, sigma, factor, steps) {
  const [loaded] = await client.ask(`LOAD run ${edge} ${sigma} ${factor} rest ${text.length}`, text);
  const atoms = Number(loaded.split(' ').at(-1));
  const start = await places(client, atoms);
  for (const command of [`ADVANCE run ${steps}`, 'REVERSE run', `ADVANCE run ${steps}`, 'REVERSE run']) {
    const [reply] = await client.ask(command);
    const [place] = await places(client, 1);
    const [measured] = await client.ask('MEASURE run');
    const [kinetic, potential] = measured.split(' ').slice(-2).map(BigInt); // both may have more bits than a number
    console.log(`${reply}: atom 0 at ${place.join(' ')}, kinetic number ${kinetic}, potential ${potential}`);
  }
  const end = await places(client, atoms);
  const elsewhere = end.filter((place, atom) => place.some((part, axis) => part !== start[atom][axis])).length;
  console.log(elsewhere ? `${elsewhere} of ${atoms} atoms are elsewhere` : `all ${atoms} atoms are where they began`);
  await client.ask('DROP run');
  await client.ask('BYE');
}

function stop(cause) {
  console.error(`small_client: ${cause}`);
  process.exit(1);
}

async function main(words) {
  if (![6, 7].includes(words.length)) stop('say HOST:PORT NAME or PROGRAM, then FILE.xyz EDGE SIGMA STEPFACTOR STEPS');
  const [path, ...numbers] = words.slice(-5);
  try {
    const text = await readFile(path);
    const client = words.length === 7 ? await clientOfServer(words[0], words[1]) : clientOfProgram(words[0]);
    await thereAndBack(client, text, ...numbers);
  } catch (error) {
    stop(error.message);
  }
}

await main(process.argv.slice(2));
