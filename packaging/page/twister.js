// The random numbers of Python's `random.Random`: the Mersenne Twister of Matsumoto and Nishimura (1998), and normal ones by Box and
// Muller (1958).

const WORDS = 624, MIDDLE = 397;
const MATRIX = 0x9908b0df, UPPER = 0x80000000, LOWER = 0x7fffffff;

export class Twister {
  #state = new Uint32Array(WORDS);
  #at = WORDS;
  #next = null; // the second normal number of a pair

  // A seed is a whole number from 0 on.
  constructor(seed) {
    const key = [];
    for (let left = BigInt(seed); left > 0n || !key.length; left >>= 32n) key.push(Number(left & 0xffffffffn));
    const state = this.#state;
    state[0] = 19650218;
    for (let k = 1; k < WORDS; k++) state[k] = Math.imul(1812433253, state[k - 1] ^ (state[k - 1] >>> 30)) + k;
    const place = this.#mix(1, Math.max(WORDS, key.length), 1664525, (_, round) => key[round % key.length] + (round % key.length));
    this.#mix(place, WORDS - 1, 1566083941, (at) => -at);
    state[0] = UPPER;
  }

  // Mixes so many words of the state, from a place on, and adds to each what is told. Returns the place after them.
  #mix(from, rounds, factor, added) {
    const state = this.#state;
    let place = from;
    for (let round = 0; round < rounds; round++) {
      state[place] = (state[place] ^ Math.imul(state[place - 1] ^ (state[place - 1] >>> 30), factor)) + added(place, round);
      place += 1;
      if (place === WORDS) [state[0], place] = [state[WORDS - 1], 1];
    }
    return place;
  }

  // The next 32 bits.
  #word() {
    if (this.#at === WORDS) this.#twist();
    let word = this.#state[this.#at++];
    word ^= word >>> 11;
    word ^= (word << 7) & 0x9d2c5680;
    word ^= (word << 15) & 0xefc60000;
    return (word ^ (word >>> 18)) >>> 0;
  }

  #twist() {
    const state = this.#state;
    for (let k = 0; k < WORDS; k++) {
      const word = (state[k] & UPPER) | (state[(k + 1) % WORDS] & LOWER);
      state[k] = state[(k + MIDDLE) % WORDS] ^ (word >>> 1) ^ (word & 1 ? MATRIX : 0);
    }
    this.#at = 0;
  }

  // A number from 0 on and below 1.
  random() {
    const [high, low] = [this.#word() >>> 5, this.#word() >>> 6];
    return (high * 67108864 + low) / 9007199254740992;
  }

  // A number of the normal distribution of mean 0 and deviation 1.
  gauss() {
    const second = this.#next;
    this.#next = null;
    if (second !== null) return second;
    const angle = this.random() * 2 * Math.PI;
    const radius = Math.sqrt(-2 * Math.log(1 - this.random()));
    this.#next = Math.sin(angle) * radius;
    return Math.cos(angle) * radius;
  }
}
