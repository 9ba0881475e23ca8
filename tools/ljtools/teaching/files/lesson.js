// The lesson of a class on a student's page: its step, its question, a hint, and which steps are done. The class judges all of it.

import { load } from "./page.js";
import { post } from "./transport.js";
import { words } from "./lesson_words.js";

const part = (name) => document.getElementById(name);
const KEPT = "ljserve-lesson-language";

let lesson = null;
let progress = null;
let language = "en";
let shown = ""; // the step that is shown
let isHinted = false;
let isAwaited = false; // whether a line is to be sent as soon as the one before is answered

const said = (name, parts = {}) => words[language][name].replace(/\{(\w+)\}/g, (_, key) => parts[key]);
const text = (name) => lesson.texts[language][name];

// The language, of those that the lesson has: that of the page where one is chosen there, or the one that was chosen here or that the
// browser wants, or else that of the class.
function languageOf() {
  const has = (code) => code && lesson.texts[code] && words[code];
  const wanted = part("language") ? [document.documentElement.lang] : [kept(), ...navigator.languages.map((each) => each.slice(0, 2))];
  return [...wanted, lesson.preferred, "en"].find(has) ?? Object.keys(lesson.texts).find(has);
}

// What this browser keeps, if it may keep something.
function kept(value) {
  try {
    if (value) localStorage.setItem(KEPT, value);
    return localStorage.getItem(KEPT);
  } catch {
    return value ?? null;
  }
}

function made(kind, inside, attributes = {}) {
  const element = Object.assign(document.createElement(kind), attributes);
  element.append(...inside);
  return element;
}

// Parts of a text between backquotes are what is typed.
function withCode(line) {
  return line.split("`").map((piece, at) => (at % 2 ? made("code", [piece]) : piece));
}

function ticks() {
  const { steps, at } = progress;
  return steps.map(({ done }, number) => {
    const state = done ? "done" : number === at ? "now" : "open";
    const mark = made("span", [done ? "✓" : String(number + 1)], { ariaHidden: "true" });
    const item = made("li", [mark, made("span", [said(state, { step: number + 1 })], { className: "unseen" })], { className: state });
    if (number === at) item.setAttribute("aria-current", "step");
    return item;
  });
}

// A question is answered by a choice or by a number.
function answers(choices) {
  if (choices.length) {
    const buttons = choices.map((each) => made("label", [made("input", [], { type: "radio", name: "answer", value: each, required: true }), ` ${each}`]));
    const set = made("fieldset", [made("legend", [said("choose")]), ...buttons]);
    set.setAttribute("aria-describedby", "question-text");
    return set;
  }
  const field = made("input", [], { name: "answer", inputMode: "text", autocomplete: "off", required: true, maxLength: 60, spellcheck: false });
  field.setAttribute("aria-describedby", "question-text");
  return made("label", [`${said("number")} `, field]);
}

function showStep() {
  const { steps, at } = progress;
  const step = steps[at];
  const key = step ? `${step.key} ${Boolean(step.choices)} ${language}` : `end ${language}`;
  part("lesson-title").textContent = `${text("title")}`;
  part("lesson-at").textContent = step ? said("step", { at: at + 1, count: steps.length }) : said("end");
  part("ticks").replaceChildren(...ticks());
  part("ticks").ariaLabel = said("steps");
  if (key === shown) return;
  const isNew = !shown || key.split(" ")[0] !== shown.split(" ")[0];
  shown = key;
  isHinted = isHinted && !isNew;
  part("lesson-text").replaceChildren(...(step ? withCode(text(step.key)) : [said("over")]));
  showHint();
  const asks = Boolean(step?.choices);
  part("lesson-question").hidden = !asks;
  part("question-text").replaceChildren(...(asks ? withCode(text(`${step.key} question`)) : []));
  part("answers").replaceChildren(...(asks ? [answers(step.choices)] : []));
  part("answer").textContent = said("answer");
}

function showHint() {
  const step = progress.steps[progress.at];
  part("hint").hidden = !step;
  part("hint").textContent = said(isHinted ? "hide" : "hint");
  part("hint").setAttribute("aria-expanded", String(isHinted));
  part("hint-text").replaceChildren(...(step && isHinted ? withCode(text(`${step.key} hint`)) : []));
}

function tell(line, kind = "") {
  part("lesson-told").textContent = line;
  part("lesson-told").className = `message ${kind}`;
}

// Says what has changed since the progress before.
function take(now) {
  const before = progress;
  progress = now;
  if (!lesson) return;
  const wasSeen = before && before.steps[before.at]?.choices;
  const step = now.steps[now.at];
  if (before && now.at > before.at && !wasSeen) tell(said(step ? "done-next" : "done-end", { at: now.at }), "good");
  else if (before && step?.choices && now.at === before.at && !wasSeen) tell(said("asked"), "good");
  showStep();
}

async function answer(event) {
  event.preventDefault();
  const step = progress.steps[progress.at];
  const given = String(new FormData(part("lesson-question")).get("answer") ?? "").trim();
  if (!step || !given) return;
  const reply = await post("answer", { lesson: lesson.name, step: step.key, answer: given });
  if (reply?.status !== 200) return tell(reply ? reply.text : said("lost"), "bad");
  const { taken, progress: now } = JSON.parse(reply.text);
  progress = now;
  showStep();
  tell(said(taken, { answer: given }), taken === "right" ? "good" : "bad");
  if (taken === "right") part("commands").focus();
}

function speak(code) {
  language = code;
  part("lesson").lang = code;
  part("lesson-language").value = code;
  for (const element of part("lesson").querySelectorAll("[data-word]")) element.textContent = said(element.dataset.word);
  tell("");
  showStep();
}

// Sends what is typed, if that may be sent now.
function submit() {
  isAwaited = part("send").disabled;
  if (!isAwaited) part("ask").requestSubmit();
}

// The box for commands stands below the step, and is empty.
function giveRoom() {
  document.body.classList.add("has-lesson");
  part("lesson").after(document.querySelector(".panel"));
  part("example").closest("label").hidden = true;
  [part("commands").value, part("commands").rows] = ["", 3];
}

function begin(about) {
  lesson = about;
  const codes = Object.keys(lesson.texts).filter((code) => words[code]);
  part("lesson-language").replaceChildren(...codes.map((code) => new Option(words[code].name, code)));
  part("lesson-language").closest("label").hidden = Boolean(part("language"));
  part("lesson").hidden = false;
  if (!document.body.classList.contains("has-lesson")) giveRoom();
  speak(languageOf());
}

// Takes in what the class tells of the lesson.
export function hear({ lesson: about, progress: now }) {
  if (now) take(now);
  if (about) begin(about);
}

// Shows the session of the lesson, if it has just come. It is not yet among those that may be chosen.
export function follow(sessions) {
  const had = [...part("scene").options].map(({ value }) => value);
  if (lesson && sessions.includes(lesson.session) && !had.includes(`session ${lesson.session}`)) load({ session: lesson.session });
}

part("hint").onclick = () => ((isHinted = !isHinted), showHint());
part("lesson-question").onsubmit = answer;
part("lesson-language").onchange = ({ target }) => (kept(target.value), speak(target.value));
part("commands").addEventListener("keydown", (event) => {
  const { key, shiftKey, ctrlKey, metaKey, isComposing } = event;
  if (!lesson || key !== "Enter" || shiftKey || ctrlKey || metaKey || isComposing) return;
  event.preventDefault();
  submit();
});
new MutationObserver(() => isAwaited && submit()).observe(part("send"), { attributes: true, attributeFilter: ["disabled"] });
part("ask").addEventListener("submit", () => lesson && part("commands").select());
new MutationObserver(() => lesson && speak(languageOf())).observe(document.documentElement, { attributes: true, attributeFilter: ["lang"] });
