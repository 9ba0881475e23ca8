// Numbers as Python reads and writes them, so that this page sends the bytes that the view of the client in Python sends.

const powerText = (power) => `e${power < 0 ? "-" : "+"}${String(Math.abs(power)).padStart(2, "0")}`;
const withoutZeros = (text) => (text.includes(".") ? text.replace(/\.?0+$/, "") : text);

// A number as `repr` writes a float: the shortest digits that tell it.
export function repr(number) {
  const [digits, power] = number.toExponential().split("e").map((part, place) => (place ? Number(part) : part));
  if (power < -4 || power >= 16) return `${digits}${powerText(power)}`;
  return Number.isInteger(number) ? `${number}.0` : String(number);
}

// A number in so many digits, as the format `g` writes it.
export function general(number, digits = 6) {
  const [mantissa, word] = number.toExponential(digits - 1).split("e");
  const power = Number(word);
  if (power < -4 || power >= digits) return `${withoutZeros(mantissa)}${powerText(power)}`;
  return withoutZeros(number.toFixed(Math.max(0, digits - 1 - power)));
}

// The nearest whole number, of two that are as near the even one.
export function rounded(number) {
  const low = Math.floor(number);
  return number - low === 0.5 ? low + Math.abs(low % 2) : Math.round(number);
}

// The number nearest to the quotient of two whole numbers, which are BigInts.
export function quotient(dividend, divisor) {
  if (dividend < 0n) return -quotient(-dividend, divisor);
  const shift = Math.max(0, 70 + 4 * (divisor.toString(16).length - dividend.toString(16).length));
  const shifted = dividend << BigInt(shift);
  const whole = shifted / divisor;
  return Number(whole * divisor === shifted ? whole : whole | 1n) / 2 ** shift; // the last bit tells that there is more
}

// What a decimal word says as a whole number of 10^-9, halves away from zero.
export function nano(word) {
  const found = /^([+-]?)(\d*)\.?(\d*)(?:e([+-]?\d{1,3}))?$/.exec(word);
  if (!found || !(found[2] || found[3])) throw new Error(`a number must be decimal, got ${word}`);
  const [, sign, whole, fraction, power] = found;
  const places = Number(power ?? 0) + 9 - fraction.length;
  const digits = BigInt(whole + fraction);
  const size = places >= 0 ? digits * 10n ** BigInt(places) : (2n * digits + 10n ** BigInt(-places)) / (2n * 10n ** BigInt(-places));
  return sign === "-" ? -size : size;
}

const MAX_SHOWN = 80;

// What was asked, as JSON, cut if it is long.
export function shown(value) {
  const text = JSON.stringify(value ?? null);
  return text.length <= MAX_SHOWN ? text : `${text.slice(0, MAX_SHOWN - 2)}..`;
}

// A whole number of millionths, without zeros at the end.
export const millionths = (number) => withoutZeros(`${number / 1000000n}.${String(number % 1000000n).padStart(6, "0")}`);
