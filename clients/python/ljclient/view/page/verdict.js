// What Exact? has found, in words: whether atoms are where they were, and whether they move as they did.

import { text } from "./texts.js";

const TIMES = { start: "Start", kept: "Saved" };

// `same` counts the atoms that have the places of that time, and `moves` those of them that move as they did, or the other way
// where the motion is `turned` since. Of the two times it is said of the one that is nearer.
export function verdict({ same, moves, turned, atoms, step }) {
  const [time] = Object.keys(same).sort((one, other) => same[other] - same[one] || moves[other] - moves[one]);
  const [found, count, then] = [same[time], atoms - moves[time], TIMES[time]];
  if (count === 0) return { text: text(`same${then}${turned[time] ? "Turned" : ""}`, { atoms }), kind: "good" };
  const motion = found < atoms ? "" : text("moveDifferently", { count });
  return { text: text(`some${then}`, { found, atoms, motion, step: step.toLocaleString("en") }), kind: "" };
}
