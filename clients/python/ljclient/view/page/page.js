// The page: its buttons, what is shown of each frame, and the frames that are asked for while it plays.

import { BurstWatch, burstText } from "./burst.js";
import { Box, RING, distance, placesOf } from "./box.js";
import { Chart, History } from "./charts.js";
import { Clock, stepText } from "./clock.js";
import { listenToKeys } from "./keys.js";
import { Course, TURN, linkOf, sceneIn, sumOf, wayTo } from "./link.js";
import { Message } from "./message.js";
import { Readout } from "./readout.js";
import { Radial, Speeds } from "./profiles.js";
import { Question } from "./question.js";
import { csvOf, download, pictureOf } from "./saving.js";
import { Settings } from "./settings.js";
import { ShownCharts } from "./shown.js";
import { Talk } from "./talk.js";
import { offerLanguages, onLanguage, text } from "./texts.js";
import { verdict } from "./verdict.js";

const PULL = 2; // the velocity that a pull by one sigma gives, in sigma per unit of time
const READ_EACH = 100; // milliseconds
const STEPS_OF_A_LINK = 100; // that are asked for at once on the way to the step of a link
const part = (name) => document.getElementById(name);
const NOW = ["frame", "playing"]; // a message of this is of the step that is shown, while time stands still
const byDirection = (direction) => (direction > 0 ? "--forward" : "--backward");
const number = (step) => step.toLocaleString("en");
// Titles of scenes that the page knows, by which they are told in each language.
const TITLES = { "A crystal": "crystal", "A crystal that melts": "crystalMelts", "A small crystal that melts": "smallCrystalMelts", "A gas of 32 atoms": "gas" };
const titleText = (title) => (TITLES[title] ? text(TITLES[title]) : title);

const box = new Box(part("box"), tug);
const charts = [
  new Chart(part("distances"), [{ value: "distance", unit: "σ", colour: byDirection }], [0, 0.2]),
  new Chart(part("aparts"), [{ value: "apart", unit: "σ", colour: byDirection }], [-10, 0], true),
  new Chart(part("energies"), ["kinetic", "total", "potential"].map((value) => ({ value, colour: () => `--${value}` })), [0, 0]),
];
const speedsChart = new Speeds(part("speeds"));
const radialChart = new Radial(part("radial"));
const shownCharts = new ShownCharts(part("charts"), () => ((fresh = true), look(true)));
let looked = null; // the frame whose speeds and distances are shown
let history = new History();
let scene = null;
let clock = null; // the time of its steps
let start = null;
let stopped = false; // whether nothing can be asked any more
let latest = null; // the frame that is shown
let refusal = ""; // why there are no atoms
let playing = false;
let following = null; // the link on the way to whose step the page is
let fresh = false; // whether what is shown has changed since it was drawn
let old = false; // whether somebody else has gone on with the atoms since
let stale = false; // whether numbers and lines have changed since they were shown
let told = 0; // when they were
let frames = []; // when the last frames were drawn
const watch = new BurstWatch();
const course = new Course();
const present = () => ({ scene, frame: latest, direction: latest?.direction, before: latest?.before, saved: latest?.saved, playing, following, hasBurst: watch.hasBurst });
const message = new Message(part("message"), present);
const warning = new Message(part("warning"), present);
const beforeStart = new Message(part("before"), present);
let opened = sceneIn(location.hash); // before the class takes it away
export const talk = new Talk(heard, (text) => (part("waits").textContent = text), ended);
const question = new Question(part("question"), (what) => talk.ask(what));
const settings = new Settings(part("settings"), beginAnew);
const readout = new Readout(part("numbers"), tug);

function heard(answer, does) {
  if (!answer.asks && !answer.error) course.take(does, answer.jumped);
  if (answer.asks) ask(answer);
  else if (answer.error) fail(answer);
  else if (answer.scene) begin(answer);
  else if (typeof answer.atoms === "string") show(answer, does);
}

// Shows what has to be said before there are atoms.
function ask(answer) {
  play(false);
  if (answer.choice) offer(answer.choice, `session ${answer.session}`);
  question.show(answer);
  message.say("", []);
}

// Says why something was not done. Where the atoms are gone others can be chosen, and where the server is gone nothing can be done.
function fail({ error, lost, choice, ended }) {
  play(false);
  if (lost) offer(choice, null);
  else if (scene) part("scene").value = chosen(scene);
  else refusal = error;
  if (ended) stop(error);
  else message.say(error, NOW, "bad");
}

// The value that a choice of atoms has in the list.
function chosen({ session, number }) {
  return session === null ? String(number) : `session ${session}`;
}

// Lists the atoms that can be shown: the user's sessions at a server, and what is loaded for the page.
function offer({ titles, sessions }, value) {
  const options = [...sessions.map((name) => [name, `session ${name}`]), ...titles.map((title, place) => [titleText(title), String(place)])];
  part("choice").hidden = options.length < 2 && value !== null;
  part("scene").replaceChildren(...options.map(([text, of]) => new Option(text, of)));
  part("scene").value = value;
}

// Takes in which sessions there are now. What is shown is asked for again where somebody else has gone on with it.
export function refresh(sessions, isOld = false) {
  if (scene) {
    scene.sessions = sessions;
    offer(scene, chosen(scene));
  }
  old ||= isOld;
}

// Says for good why nothing can be asked any more.
function stop(why) {
  stopped = true;
  following = null;
  play(false);
  box.forget();
  for (const control of document.querySelectorAll("button:not(.link), select:not(#language)")) control.disabled = true;
  message.say(why, [], "bad");
}

function ended(isEndOfView) {
  stop(refusal || (() => text(isEndOfView ? "viewHasEnded" : "linkIsLost")));
}

// Asks for other atoms.
export function load(what) {
  following = null;
  play(false);
  question.hide();
  message.say(() => text("loadingAtoms"), ["scene"]);
  return talk.ask({ do: "load", ...what });
}

// Asks for the atoms that this value of the choice stands for.
function choose(value) {
  const name = value.startsWith("session ") && value.slice("session ".length);
  load(name ? { session: name } : { scene: Number(value) });
}

// Asks for the same atoms with another temperature, another step, or more or fewer of them.
function beginAnew(what) {
  load({ scene: scene.number, ...what });
}

// A new scene, which the answer says beside its first frame.
function begin(answer) {
  play(false);
  question.hide();
  scene = answer.scene;
  clock = new Clock(scene);
  start = placesOf(answer.atoms, scene.unit);
  history = new History();
  box.begin(start, scene.edge, scene.sigma);
  cut();
  offer(scene, chosen(scene));
  settings.show(scene);
  readout.begin(start, scene);
  describe();
  show(answer, "load");
  part("link").hidden = !scene.settings;
  message.say(() => text("pressPlay"), NOW);
  open();
}

// Says what the scene is like.
function describe() {
  const step = scene.dt === null ? `${scene.reduced_dt.toFixed(4)} τ` : `${scene.dt.toFixed(2)} fs`;
  const about = text("about", { count: start.length / 3, edge: scene.edge.toFixed(2), step });
  part("about").textContent = part("choice").hidden ? text("titled", { title: titleText(scene.title), text: about }) : about;
  part("axis").options[1].textContent = text("timeIn", { unit: clock.unit });
}

// Cuts a slab out of the middle that has some fifty atoms, or out of where there are any.
function cut() {
  const atoms = start.length / 3;
  part("thickness").max = scene.edge.toFixed(1);
  part("thickness").value = Math.max(1.8, (50 / atoms) * scene.edge).toFixed(1);
  part("depth").value = 0.5;
  slide();
  if (!box.slab().length) part("depth").value = start[2] / RING;
  slide();
}

// Takes in a frame, and what led to it. One that has jumped does not follow the one before, as after Restore.
function show(frame, does) {
  const places = placesOf(frame.atoms, scene.unit);
  box.places = places;
  const before = history.last;
  const far = distance(places, start) / scene.sigma;
  const row = { step: frame.step, direction: frame.direction, distance: far, kinetic: frame.kinetic, potential: frame.potential, temperature: frame.temperature };
  row.total = row.kinetic + row.potential;
  row.apart = takeSecond(frame, places);
  row.follows = Boolean(before) && !frame.jumped;
  history.add(row);
  latest = frame;
  fresh = true;
  message.keep();
  beforeStart.keep();
  if (frame.before && !beforeStart.isSaid) beforeStart.say(() => text("beforeStart", { step: number(scene.start) }), ["scene", "before"]);
  watchEnergy(does, row.total);
  if (!playing) tell();
}

// Takes in the places of the second run, and returns how far it is from the first. Without one that is nothing.
function takeSecond(frame, places) {
  const second = frame.second ? placesOf(frame.second) : null;
  box.second = second;
  const had = part("second").getAttribute("aria-pressed") === "true";
  if (had !== Boolean(second)) shownCharts.set("of-second", Boolean(second));
  part("second").setAttribute("aria-pressed", String(Boolean(second)));
  return second && distance(places, second) / scene.sigma;
}

// Says that the simulation has burst for as long as it has.
function watchEnergy(does, energy) {
  const hadBurst = watch.hasBurst;
  watch.take(does, energy);
  warning.keep();
  if (watch.hasBurst && !hadBurst) warning.say(() => burstText(scene), ["scene", "hasBurst"], "bad");
}

// Energies with two decimals, and large ones in few letters.
function energyText(energy) {
  const text = Math.abs(energy) < 1e5 ? energy.toFixed(2) : energy.toExponential(2).replace("e+", "e");
  return text.replace("-", "−");
}

// Shows the numbers of the latest frame.
function tell() {
  if (!latest) return;
  const frame = latest;
  const row = history.last;
  const far = row.distance;
  const direction = (part("time").dataset.direction = frame.direction > 0 ? "forward" : "backward");
  part("direction").textContent = text(direction);
  part("step").textContent = number(frame.step);
  part("clock").textContent = clock.text(frame.step);
  if (row.apart !== null) part("apart").textContent = farText(row.apart, true);
  part("distance").textContent = farText(far, scene.exact);
  for (const name of ["kinetic", "potential", "total"]) part(name).textContent = energyText(row[name]);
  part("temperature").textContent = scene.in_kelvin ? `${frame.temperature.toFixed(1)} K` : `${frame.temperature.toFixed(2)} ε/k`;
  part("restore").disabled = frame.saved === null || stopped;
  nameRestore();
  const shown = (name) => part(name).textContent;
  const energies = ["kinetic", "potential", "total"].map((name) => [text(name), `${shown(name)} ε`]);
  const rows = [["step", shown("step")], ["time", shown("clock")], ["direction", shown("direction")], ["numberOfAtoms", String(start.length / 3)], ["temperature", shown("temperature")]];
  const told = [...rows.map(([key, value]) => [text(key), value]), ...energies, [text("distance"), `${shown("distance")} σ`]];
  part("seen").textContent = text(frame.direction > 0 ? "seenForward" : "seenBackward", { count: start.length / 3, step: shown("step"), temperature: shown("temperature"), distance: shown("distance") });
  readout.show(told, box.places);
}

// A distance in sigma: 0 only if it is none, as far as that is known.
function farText(far, isExact) {
  if (far === 0) return isExact ? "0" : "0.000";
  return far < 0.001 ? far.toExponential(1).replace("-", "−") : far.toFixed(3);
}

function play(on) {
  playing = on;
  frames = [];
  namePlay();
  part("rate").textContent = "";
  message.keep();
}

const namePlay = () => (part("play").textContent = text(playing || following ? "pause" : "play"));

function nameRestore() {
  const saved = latest?.saved ?? null;
  part("restore").textContent = saved === null ? text("restore") : text("restoreStep", { step: number(saved) });
}

// Asks for the next frame. On the way back it stops where the motion began, and not a step beyond.
async function goOn(steps) {
  if (!history.last) return;
  const { step, direction } = history.last;
  const left = (scene.start - step) * direction;
  const frame = await talk.ask({ do: "frame", steps: left > 0 ? Math.min(steps, left) : steps });
  if (frame.step === scene.start && left > 0) {
    play(false);
    message.say(() => text("backAtStart", { step: number(frame.step) }), NOW);
  }
}

// Draws what has changed. While it plays, numbers and lines change no more often than they can be read.
function draw() {
  requestAnimationFrame(draw);
  const now = performance.now(); // a browser under load may give every drawing one time
  if (fresh) {
    fresh = false;
    stale = true;
    box.draw();
    if (playing) count();
  }
  if (stale && (!playing || now - told >= READ_EACH)) {
    stale = false;
    told = now;
    tell();
    charts.forEach((chart) => chart.draw(history, clock, part("axis").value === "time"));
    speedsChart.draw();
    radialChart.draw();
  }
  if (old && talk.isIdle && latest) (old = false), playing || goOn(0);
  if (talk.isIdle && latest && looked !== latest) look(false);
  if (playing && !box.held && talk.isIdle) goOn(Number(part("speed").value));
}

// Looks at the present frame for the charts of speeds and of distances that are shown and due.
async function look(isNew) {
  const [now, frame, places] = [performance.now(), latest, box.places];
  if (!frame) return;
  looked = playing ? looked : frame;
  const jumped = isNew || !playing;
  if (radialChart.isShown && (jumped || radialChart.isDue(now))) {
    radialChart.take(places, scene, jumped);
    stale = true;
  }
  if (stopped || !speedsChart.isShown || !(jumped || speedsChart.isDue(now))) return;
  const { now: present, before } = await talk.ask({ do: "speeds" });
  if (!before) return;
  const temperature = (2 / 3) * history.last.kinetic;
  speedsChart.take(placesOf(present, scene.unit), placesOf(before, scene.unit), scene, temperature, jumped);
  part("unit-of-speeds").textContent = scene.speed ? "m/s" : "σ/τ";
  stale = true;
}

// Tells how many frames of the last second were drawn.
function count() {
  const now = performance.now();
  frames = [...frames.filter((time) => now - time < 1000), now];
  if (now - frames[0] > 500) part("rate").textContent = text("framesASecond", { count: Math.round(((frames.length - 1) * 1000) / (now - frames[0])) });
}

async function reverse() {
  const frame = await talk.ask({ do: "reverse" });
  if (!frame.direction) return;
  message.say(() => text(frame.direction < 0 ? "timeHasTurned" : "timeRunsForward"), ["scene", "direction"]);
}

async function tug(atom, right, up) {
  if (stopped || !scene) return;
  following = null;
  const unit = PULL * scene.reduced_dt * scene.sigma;
  const by = [right, up, 0].map((pull) => Math.round(pull * unit));
  const frame = await talk.ask({ do: "tug", atom, by });
  if (!frame.atoms) return;
  const strength = (PULL * Math.hypot(right, up)).toPrecision(2);
  message.say(() => text("tugged", { atom, step: number(frame.step), strength }), ["scene"]);
}

// Begins a second run from here, which differs by the least that there is, or ends the one that is there.
async function second() {
  const on = !box.second;
  const frame = await talk.ask({ do: "second", on });
  if (!frame.second || !on) return;
  message.say(() => text("secondBegun", { step: number(frame.step) }), ["scene"]);
}

async function save() {
  const { saved } = await talk.ask({ do: "save" });
  if (saved !== undefined) message.say(() => text("saved", { step: number(saved) }), ["scene", "saved"]);
}

// Saves the box and the charts as they are shown.
async function savePicture() {
  if (!latest) return;
  const title = text(latest.direction > 0 ? "pictureForward" : "pictureBackward", { title: titleText(scene.title), step: stepText(latest.step, clock) });
  const figures = [...document.querySelectorAll("figure")].filter((figure) => !figure.hidden);
  download(`${fileName()}.png`, await pictureOf(part("box"), figures, title));
}

// Saves the rows of the charts over the steps.
function saveRows() {
  if (!latest) return;
  const rows = csvOf(history, clock, scene.in_kelvin ? "K" : "epsilon/k");
  download(`${fileName()}.csv`, new Blob([rows], { type: "text/csv" }));
}

// The name of a file of this step, in letters that each system takes.
export function fileName() {
  return `${scene.title.replace(/\.xyz$/, "").replace(/[^A-Za-z0-9-]+/g, "_")}_step_${latest.step}`;
}

// Opens what the address of the page holds, when there are atoms.
function open() {
  const { scene: link, fault } = opened;
  opened = {};
  if (link) follow(link);
  else if (fault) message.say(() => text("linkBad", { why: fault() }), NOW, "bad");
}

// Loads the atoms of a link, and goes to its step.
async function follow(link) {
  const bad = (tell) => message.say(() => text("linkBad", { why: tell() }), NOW, "bad");
  const place = scene.titles.indexOf(link.title);
  if (place < 0) return bad(() => text("linkUnknown", { title: link.title }));
  const { error } = await load({ scene: place, ...link.load });
  if (error) return bad(() => error);
  if (link.charts) shownCharts.show(link.charts);
  part("axis").value = link.axis ?? "steps";
  following = link;
  namePlay();
  message.say(() => text("linkGoes", { step: number(link.step) }), ["scene", "following"]);
  for (const act of wayTo(link.step, link.direction)) if (following === link) await (act === TURN ? talk.ask({ do: "reverse" }) : goBy(act, link));
  if (following === link) arrive(link);
}

// Goes on by so many steps of a link, until something else is asked for.
async function goBy(steps, link) {
  for (let left = steps; left > 0 && following === link; left -= STEPS_OF_A_LINK) {
    const { error } = await talk.ask({ do: "frame", steps: Math.min(left, STEPS_OF_A_LINK) });
    if (error) following = null;
  }
}

// Compares what was reached with what the link was made of.
async function arrive(link) {
  const both = link.check && (await talk.ask({ do: "speeds" }));
  if (following !== link) return;
  following = null;
  namePlay();
  const isSame = !both || sumOf(both) === link.check;
  const key = !both ? "linkReached" : isSame ? "linkSame" : "linkOthers";
  message.say(() => text(key, { step: number(link.step) }), NOW, !both ? "" : isSame ? "good" : "bad");
}

// Copies a link to what is shown or, where the browser does not let the page, selects it.
async function copyLink() {
  play(false);
  const both = await talk.ask({ do: "speeds" });
  if (both.error) return;
  if (!course.isPlain) return message.say(() => text("linkChanged"), NOW, "bad");
  const step = number(latest.step);
  const link = linkOf(scene, latest, shownCharts.names, part("axis").value, both.now && sumOf(both));
  const isCopied = await navigator.clipboard?.writeText(link).then(() => true, () => false);
  const field = part("link-text");
  [field.value, field.hidden] = [link, Boolean(isCopied)];
  if (!isCopied) field.select();
  message.say(() => text(isCopied ? "linkCopied" : "linkSelected", { step }), NOW);
}

async function goBack(what, key) {
  play(false);
  const frame = await talk.ask({ do: what });
  if (frame.step !== undefined) message.say(() => text(key, { step: number(frame.step) }), NOW);
}

// Compares the atoms of this step, so time stands still for it.
async function compare() {
  play(false);
  const found = await talk.ask({ do: "exact" });
  if (!found.same) return;
  message.say(() => verdict(found).text, NOW, verdict(found).kind);
}

const acts = {
  play: (isOnTheWay) => play(!playing && !isOnTheWay),
  one: () => (play(false), goOn(1)),
  reverse,
  second,
  exact: compare,
  save,
  picture: savePicture,
  csv: saveRows,
  link: copyLink,
  restore: () => goBack("restore", "restored"),
  restart: () => goBack("restart", "restarted"),
};

// Before there are atoms a button does nothing. On the way to the step of a link each stops there, and Play, which is Pause then, does no more.
for (const [name, act] of Object.entries(acts)) part(name).addEventListener("click", () => {
  if (!scene) return;
  const isOnTheWay = following !== null;
  following = null;
  act(isOnTheWay);
});
addEventListener("hashchange", () => {
  opened = sceneIn(location.hash);
  if (scene && !stopped) open();
});
listenToKeys(document, part("keys"), () => talk.isIdle);
document.addEventListener("keydown", ({ key }) => key === "Escape" && box.forget());
for (const name of ["depth", "thickness", "speed"]) part(name).addEventListener("input", slide);
for (const chart of charts) chart.moved = () => (stale = true);
part("axis").addEventListener("change", () => (stale = true));
part("scene").addEventListener("change", (event) => choose(event.target.value));
matchMedia("(prefers-color-scheme: dark)").addEventListener("change", () => (fresh = true));
addEventListener("resize", () => (fresh = true));

function slide() {
  box.depth = Number(part("depth").value);
  box.thickness = Number(part("thickness").value);
  part("thick").textContent = part("thickness").ariaValueText = `${box.thickness.toFixed(1)} σ`;
  part("pace").textContent = part("speed").ariaValueText = text("aFrame", { steps: part("speed").value });
  fresh = true;
}

// Tells all that is shown in the language that is chosen.
function retell() {
  slide();
  namePlay();
  nameRestore();
  for (const each of [message, warning, beforeStart, question]) each.again();
  if (!scene) return;
  offer(scene, part("scene").value || null);
  describe();
  stale = true;
}

offerLanguages(part("language"));
onLanguage(retell);
message.say(() => text("loadingAtoms"), ["scene"]);
retell();
draw();
