// What the page of a class has beside the view: commands and their replies, whose page it is, and what the teacher says.

import { refresh, talk } from "./page.js";
import { examples } from "./examples.js";
import { follow, hear } from "./lesson.js";
import { post } from "./transport.js";
import { Typed } from "./typed.js";

const part = (name) => document.getElementById(name);
const told = (text) => (part("state").textContent = text);

// The sessions are the student's own, so the atoms that are loaded for the page are no example.
function examplesOfClass() {
  return Object.fromEntries(Object.entries(examples).filter(([, text]) => !text.includes("view-")));
}

function change(sessions, isOld = false) {
  follow(sessions);
  refresh(sessions, isOld);
}

const typed = new Typed(talk, told, ({ sessions }) => sessions && change(sessions), true);
typed.offer(examplesOfClass());
talk.news = ({ student, teacher, sessions, ...ofLesson }) => {
  if (student !== undefined) {
    [part("student").textContent, part("who").hidden, part("send").disabled] = [student, false, false];
    told("Commands go to your sessions, as at the prompt.");
  }
  if (teacher !== undefined) part("teacher").textContent = teacher;
  if (sessions !== undefined) change(sessions, true);
  hear(ofLesson);
};
part("leave").onclick = async () => {
  await post("out", {});
  location.reload();
};
