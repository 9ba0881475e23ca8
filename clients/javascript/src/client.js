// Commands and their replies, over any two streams of bytes.

const LINE_END = 10;

/** A command was refused, or the connection has ended. */
export class ClientError extends Error {
  name = "ClientError";
}

/** How many lines follow the first line of a reply. */
const linesBehind = (first) => (/^OK (DUMP|LIST) /.test(first) ? Number(first.split(" ").at(-1)) : 0);

/** A user's connection. Replies come in the order of the commands, so the next command may be sent before a reply is there. */
export class Client {
  #write;
  #close;
  #waiting = [];
  #partial = "";
  #lines = [];
  #behind = 0;
  #lost = "";

  /**
   * @param {(bytes: Uint8Array) => void} write sends bytes
   * @param {() => void} close ends the connection
   */
  constructor(write, close) {
    this.#write = write;
    this.#close = close;
  }

  /** Sends a command, with its body if it has one, and returns its reply, each line ended by "\n". */
  async send(command, body = "") {
    const line = command.replace(/\n$/, "");
    if (/[^ -~]/.test(line)) throw new ClientError("a command must be one line of printing characters");
    if (this.#lost) throw new ClientError(this.#lost);
    const reply = new Promise((resolve, reject) => this.#waiting.push({ resolve, reject }));
    this.#write(new TextEncoder().encode(`${line}\n${body}`));
    return (await reply).map((each) => `${each}\n`).join("");
  }

  /** Ends the connection. Commands without a reply are refused. */
  close() {
    this.lose("the connection was closed");
    this.#close();
  }

  /** Takes in bytes of replies, which may end anywhere. */
  hear(bytes) {
    const lines = (this.#partial + new TextDecoder("latin1").decode(bytes)).split(String.fromCharCode(LINE_END));
    this.#partial = lines.pop();
    for (const line of lines) {
      if (!this.#lines.length) this.#behind = linesBehind(line);
      this.#lines.push(line);
      if (this.#lines.length > this.#behind) this.#answer(this.#lines.splice(0));
    }
  }

  /** Notes that no more replies come. */
  lose(why) {
    this.#lost ||= why;
    for (const { reject } of this.#waiting.splice(0)) reject(new ClientError(this.#lost));
  }

  #answer(lines) {
    const { resolve, reject } = this.#waiting.shift() ?? {};
    // What is printed of a reply is for a terminal, which heeds other bytes.
    if (lines.some((line) => /[^ -~]/.test(line))) reject?.(new ClientError("a reply must be lines of printing characters"));
    else if (lines[0].startsWith("ERR ")) reject?.(new ClientError(lines[0]));
    else resolve?.(lines);
  }
}
