// The same conversation over a program's pipes, over TCP and over the module: LJSERVE names a program, and LJSERVE_WASM a folder with
// wasm64.wasm and wasm32.wasm. What is not there is skipped.
import assert from "node:assert";
import { spawn } from "node:child_process";
import { existsSync, mkdtempSync, writeFileSync } from "node:fs";
import { createServer } from "node:net";
import { tmpdir } from "node:os";
import { join } from "node:path";
import test from "node:test";

import { Client, ClientError, Engine, begin, connectTo } from "../src/node.js";

const { LJSERVE, LJSERVE_WASM } = process.env;
const BODY = "2\ndimer\nAr 0 0 0\nAr 1.5 0 0\n";
const LOAD = `LOAD a 256 1 131072 rest ${BODY.length}`;
const TOKEN = "0123456789abcdef0123456789abcdef";

/** There and back: an atom of the dimer stands at 0, 589 and 1774 after no step, one and two, which docs/PROTOCOL.md works out. */
async function converse(client) {
  assert.equal(await client.send(LOAD, BODY), "OK LOAD a 0 2\n");
  const lines = ["ADVANCE a 2", "SHOW a 0", "REVERSE a", "SHOW a 0", "ADVANCE a 1", "SHOW a 0", "LIST"];
  const replies = await Promise.all(lines.map((line) => client.send(line)));
  const places = replies.filter((reply) => reply.startsWith("OK SHOW"));
  assert.deepEqual(places, ["OK SHOW a 2 0 1774 0 0\n", "OK SHOW a 1 0 589 0 0\n", "OK SHOW a 0 0 0 0 0\n"]);
  assert.match(replies[6], /^OK LIST 1\na 0 2 0\n$/);
  await assert.rejects(client.send("SHOW b 0"), (error) => error instanceof ClientError && /^ERR \d+ /.test(error.message));
  await assert.rejects(client.send("SHOW a 0\nSHOW a 1"), /one line/);
  assert.match(await client.send("SHOW a 1"), /^OK SHOW a /);
}

test("over the pipes of a program", { skip: !LJSERVE && "LJSERVE names no program" }, async () => {
  const client = begin(LJSERVE);
  await converse(client);
  assert.equal(await client.send("BYE"), "OK BYE\n");
  client.close();
  await assert.rejects(client.send("LIST"), /closed|ended/);
});

test("a program that is not there", async () => {
  await assert.rejects(begin("/nonexistent/ljserve").send("LIST"), ClientError);
});

/** A port that is free now. */
const freePort = () =>
  new Promise((resolve) => {
    const server = createServer().listen(0, "127.0.0.1", () => {
      const { port } = server.address();
      server.close(() => resolve(port));
    });
  });

async function connectSoon(port) {
  for (let left = 200; ; left--) {
    try {
      return await connectTo("127.0.0.1", port, "ann", TOKEN);
    } catch (error) {
      if (left === 0) throw error;
      await new Promise((go) => setTimeout(go, 50));
    }
  }
}

test("over TCP", { skip: !LJSERVE && "LJSERVE names no program" }, async () => {
  const users = join(mkdtempSync(join(tmpdir(), "ljclient-")), "users");
  writeFileSync(users, `ann ${TOKEN} 8 16384 16\n`, { mode: 0o600 });
  const port = await freePort();
  const words = ["serve", "--listen", `127.0.0.1:${port}`, "--users", users, "--workers", "1", "--connections", "1000"];
  const server = spawn(LJSERVE, words, { stdio: "ignore" });
  try {
    const client = await connectSoon(port);
    await converse(client);
    client.close();
    await assert.rejects(connectTo("127.0.0.1", port, "ann", TOKEN.replace("0", "1")), ClientError);
  } finally {
    server.kill();
  }
});

for (const kind of ["wasm32", "wasm64"]) {
  const file = join(LJSERVE_WASM ?? "", `${kind}.wasm`);
  const isOld = kind === "wasm64" && Number(process.versions.node.split(".")[0]) < 24;
  const skip = (!existsSync(file) && `there is no ${file}`) || (isOld && "this Node has no memory of 64 bits");

  test(`as ${kind}`, { skip }, async () => {
    const client = await Engine.open(file);
    await converse(client);
    assert.equal(await client.send("BYE"), "OK BYE\n");
    await assert.rejects(client.send("LIST"), /status 0/);
    client.close();
  });

  test(`a long body as ${kind}`, { skip }, async () => {
    const atoms = 4096;
    const lines = Array.from({ length: atoms }, (_, i) => `Ar ${i % 16} ${(i >> 4) % 16} ${i >> 8}`);
    const body = `${atoms}\ncrystal\n${lines.join("\n")}\n`;
    const client = await Engine.open(file);
    assert.equal(await client.send(`LOAD a 16 1 4295 rest ${body.length}`, body), `OK LOAD a 0 ${atoms}\n`);
    client.close();
    await assert.rejects(client.send("LIST"), /closed/);
  });
}

test("replies that end anywhere, and bytes that are no text", async () => {
  const client = new Client(() => {}, () => {});
  const replies = ["LIST", "SHOW a 0"].map((line) => client.send(line));
  for (const letter of "OK LIST 1\na 0 2 0\nOK SHOW a 0 0 0 0 0\n") client.hear(new TextEncoder().encode(letter));
  assert.deepEqual(await Promise.all(replies), ["OK LIST 1\na 0 2 0\n", "OK SHOW a 0 0 0 0 0\n"]);
  const odd = client.send("LIST");
  client.hear(Uint8Array.from([27, 91, 10]));
  await assert.rejects(odd, /printing characters/);
  const last = client.send("LIST");
  client.lose("the link was cut");
  await assert.rejects(last, /the link was cut/);
});
