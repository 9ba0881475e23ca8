// Cuts a text into commands, each with the body that its line announces.

const LOADS = ["LOAD", "LOADMIX"];
const MOST = 1048576; // bytes of a body
const MOST_OF_A_LINE = 256; // a longer one is refused, and has no body

const wordsOf = (line) => line.replace(/\r$/, "").split(/[ \t]+/).filter(Boolean);
const bytesOf = (text) => new TextEncoder().encode(text);

// A load of a file, which stands behind the name of the session in place of the edge. The prompt knows such ones.
const isOfFile = (words) => LOADS.includes(words[0]) && words.length > 2 && !/^[+-]?\.?\d/.test(words[2]);

/** How many bytes of body a line announces: the last word of a LOAD or a LOADMIX. Null where that is no count. */
function announced(line, takesFiles = false) {
  const words = wordsOf(line);
  if (!LOADS.includes(words[0]) || (takesFiles && isOfFile(words)) || line.length > MOST_OF_A_LINE) return 0;
  return /^\d{1,7}$/.test(words.at(-1)) && Number(words.at(-1)) <= MOST ? Number(words.at(-1)) : null;
}

/** Why a command is not to be sent: the program would end, or wait for the rest of a body. Nothing where it may be. */
export function faultOf(line, body) {
  const count = announced(line);
  if (count === null) return `not sent: ${wordsOf(line)[0]} must end with a count of bytes, at most ${MOST.toLocaleString("en")}, else the program ends`;
  const found = bytesOf(body).length;
  return found < count ? `not sent: the body must have the ${count} bytes that the line announces, got ${found}` : "";
}

/**
 * @param {string} text lines, with the bodies of loads
 * @param {boolean} takesFiles whether a load may name a file, and has no body then
 * @returns {{line: string, body: string}[]} the commands; a body that the text has not whole is what there is of it
 */
export function split(text, takesFiles = false) {
  const commands = [];
  let left = text.endsWith("\n") ? text : `${text}\n`;
  while (left) {
    const end = left.indexOf("\n");
    const line = left.slice(0, end);
    left = left.slice(end + 1);
    if (!line) continue;
    const body = new TextDecoder().decode(bytesOf(left).subarray(0, announced(line, takesFiles) ?? 0));
    left = left.slice(body.length);
    commands.push({ line, body });
  }
  return commands;
}
