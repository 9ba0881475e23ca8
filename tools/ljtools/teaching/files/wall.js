// The wall: who is in, what each student has, the last command and the last refusal. It changes nothing; a click looks on at a student.

import { LookOn } from "./look_on.js";
import { Picture, received } from "./picture.js";
import { made, nameOf, sessionOf } from "./rows.js";
import { post } from "./transport.js";

const part = (name) => document.getElementById(name);
const AGAIN = 500; // milliseconds until a connection that has ended is tried again
const cards = new Map(); // by the names of students
const pictures = new Map(); // by names of students, and by the numbers of their sessions
let socket = null;

// Where a student is in: at the prompt, or by how many pages.
function whereText({ prompt, pages }) {
  const places = [prompt && "prompt", pages && (pages === 1 ? "1 page" : `${pages} pages`)].filter(Boolean);
  return places.join(", ") || "not in";
}

function stepsOf(steps) {
  const row = made("p", "steps", ...steps.map((isDone) => made("i", isDone ? "done" : "")));
  row.title = `${steps.filter(Boolean).length} of ${steps.length} steps of the lesson`;
  row.setAttribute("role", "img");
  row.setAttribute("aria-label", row.title);
  return row;
}

// The lines of a student below the name.
function linesOf({ sessions, command, refusal, steps, why }) {
  const lines = sessions.map(sessionOf);
  if (steps) lines.push(stepsOf(steps));
  if (command) lines.push(made("p", "", made("code", "", command)));
  if (refusal) lines.push(made("p", "refused", `last refusal: ${refusal}`));
  if (why) lines.push(made("p", "refused", `not let in: ${why}`));
  return lines;
}

// A student on the wall. It stays the same element, so that what has the focus keeps it.
class Card {
  constructor(name) {
    this.name = made("button", "name", name);
    this.name.title = `Look on at ${name}`;
    this.name.onclick = () => (look.begin(name), showLook());
    this.where = made("small", "");
    this.lines = made("div", "lines");
    this.picture = new Picture("small");
    this.element = made("section", "student", made("h2", "", this.name, this.where), made("div", "body", this.lines, this.picture.element));
    this.told = "";
  }

  show(student) {
    const told = JSON.stringify(student);
    this.student = student;
    if (told === this.told) return;
    this.told = told;
    this.element.classList.toggle("in", Boolean(student.prompt || student.pages));
    this.where.textContent = whereText(student);
    this.lines.replaceChildren(...linesOf(student));
    this.showPicture();
  }

  showPicture() {
    const { name, shown, sessions } = this.student;
    const session = sessions.find(({ id }) => id === shown);
    this.picture.show(session && pictures.get(name)?.get(shown), session && `${nameOf(session)} of ${name}`);
  }
}

const look = new LookOn(part("look"), () => socket?.readyState === WebSocket.OPEN && socket.send(JSON.stringify({ look: look.name })));

// All students, each card of whom stays where it is.
function show({ teacher, students }) {
  const inside = students.filter(({ prompt, pages }) => prompt || pages).length;
  part("about").textContent = `${inside} of ${students.length} ${students.length === 1 ? "student is" : "students are"} in`;
  part("teacher").textContent = teacher;
  const before = [...cards.keys()].join(" ");
  const names = students.map(({ name }) => name);
  for (const name of names) if (!cards.has(name)) cards.set(name, new Card(name));
  for (const name of [...cards.keys()]) if (!names.includes(name)) cards.delete(name);
  if (names.join(" ") !== before) part("students").replaceChildren(...names.map((name) => cards.get(name).element));
  for (const student of students) cards.get(student.name).show(student);
  showLook();
}

function take(told) {
  for (const each of told) {
    if (!pictures.has(each.student)) pictures.set(each.student, new Map());
    pictures.get(each.student).set(each.session, received(each));
  }
  for (const name of new Set(told.map(({ student }) => student))) cards.get(name)?.showPicture();
  showLook();
}

// What is known of the student who is looked at.
function showLook() {
  const card = cards.get(look.name);
  if (card) look.show(card.student, pictures.get(look.name) ?? new Map());
}

function hear(told) {
  if (told.error) part("about").textContent = told.error;
  if (told.students) show(told);
  if (told.pictures) take(told.pictures);
  if (told.look?.name === look.name) look.hear(told.look);
}

function listen() {
  socket = new WebSocket(`wss://${location.host}/wall-session`);
  socket.onopen = () => look.name && look.ask();
  socket.onmessage = (event) => hear(JSON.parse(event.data));
  socket.onclose = () => {
    if (!part("about").textContent.includes("ended")) part("about").textContent = "The class cannot be reached. This wall goes on when it can.";
    setTimeout(listen, AGAIN);
  };
}

setInterval(() => {
  for (const card of cards.values()) card.picture.tell();
  look.tell();
}, 1000);

function redraw() {
  for (const card of cards.values()) card.picture.draw();
  look.draw();
}

addEventListener("resize", redraw);
matchMedia("(prefers-color-scheme: dark)").addEventListener("change", redraw);

const token = location.hash.slice(1);
if (token) {
  history.replaceState(null, "", location.pathname);
  const answer = await post("wall", { token });
  if (answer && answer.status !== 200) part("about").textContent = "The link of this wall is not that of the class. It stands where the class was begun.";
  else listen();
} else {
  listen();
}
