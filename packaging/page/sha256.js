// SHA-256 (FIPS 180-4) of text that comes piece by piece. The browser's own is for pages over HTTPS alone, and for whole texts.

const ROUNDS = 64;
const FIRST = [0x6a09e667, 0xbb67ae85, 0x3c6ef372, 0xa54ff53a, 0x510e527f, 0x9b05688c, 0x1f83d9ab, 0x5be0cd19];
const schedule = new Int32Array(ROUNDS);
const encoder = new TextEncoder();

// The first 32 bits behind the point of the cube roots of the first primes.
const CONSTANTS = (() => {
  const found = [];
  for (let number = 2; found.length < ROUNDS; number++) {
    let isPrime = true;
    for (let factor = 2; factor * factor <= number; factor++) isPrime &&= number % factor !== 0;
    if (isPrime) found.push(rootBits(number));
  }
  return Int32Array.from(found);
})();

// The cube root in whole numbers of 2^-32, by halving, without the whole part.
function rootBits(number) {
  const cube = BigInt(number) << 96n;
  let [low, high] = [0n, 1n << 40n];
  while (high - low > 1n) {
    const middle = (low + high) / 2n;
    if (middle ** 3n <= cube) low = middle;
    else high = middle;
  }
  return Number(low & 0xffffffffn);
}

export class Sha256 {
  #words = Int32Array.from(FIRST);
  #block = new Uint8Array(64);
  #view = new DataView(this.#block.buffer);
  #length = 0;

  // Takes in bytes, or text as UTF-8.
  update(more) {
    const bytes = typeof more === "string" ? encoder.encode(more) : more;
    let at = 0;
    while (at < bytes.length) {
      const held = this.#length % 64;
      const piece = bytes.subarray(at, at + 64 - held);
      this.#block.set(piece, held);
      this.#length += piece.length;
      at += piece.length;
      if (this.#length % 64 === 0) this.#compress();
    }
    return this;
  }

  copy() {
    const other = new Sha256();
    other.#words.set(this.#words);
    other.#block.set(this.#block);
    other.#length = this.#length;
    return other;
  }

  // The sum of all that was taken in, in hexadecimal digits. More may be taken in.
  hex() {
    const last = this.copy();
    const bits = this.#length * 8;
    last.update(new Uint8Array(1 + ((119 - (this.#length % 64)) % 64)).fill(0x80, 0, 1));
    last.#view.setUint32(56, Math.floor(bits / 2 ** 32));
    last.#view.setUint32(60, bits >>> 0);
    last.#compress();
    return Array.from(last.#words, (word) => (word >>> 0).toString(16).padStart(8, "0")).join("");
  }

  // Takes in the block. Each name is a word of the standard, and nothing is made meanwhile, since this is done often.
  #compress() {
    const w = schedule;
    for (let k = 0; k < 16; k++) w[k] = this.#view.getInt32(4 * k);
    for (let k = 16; k < ROUNDS; k++) {
      const x = w[k - 15];
      const y = w[k - 2];
      const low = ((x >>> 7) | (x << 25)) ^ ((x >>> 18) | (x << 14)) ^ (x >>> 3);
      const high = ((y >>> 17) | (y << 15)) ^ ((y >>> 19) | (y << 13)) ^ (y >>> 10);
      w[k] = w[k - 16] + low + w[k - 7] + high;
    }
    mix(this.#words);
  }
}

function mix(words) {
  let a = words[0], b = words[1], c = words[2], d = words[3], e = words[4], f = words[5], g = words[6], h = words[7];
  for (let k = 0; k < ROUNDS; k++) {
    const high = ((e >>> 6) | (e << 26)) ^ ((e >>> 11) | (e << 21)) ^ ((e >>> 25) | (e << 7));
    const one = (h + high + ((e & f) ^ (~e & g)) + CONSTANTS[k] + schedule[k]) | 0;
    const low = ((a >>> 2) | (a << 30)) ^ ((a >>> 13) | (a << 19)) ^ ((a >>> 22) | (a << 10));
    const two = (low + ((a & b) ^ (a & c) ^ (b & c))) | 0;
    h = g;
    g = f;
    f = e;
    e = (d + one) | 0;
    d = c;
    c = b;
    b = a;
    a = (one + two) | 0;
  }
  words[0] += a;
  words[1] += b;
  words[2] += c;
  words[3] += d;
  words[4] += e;
  words[5] += f;
  words[6] += g;
  words[7] += h;
}

// The sum of bytes or of a text.
export const sumOf = (whole) => new Sha256().update(whole).hex();
