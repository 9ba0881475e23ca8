// The texts of the page in the language of its reader: that of `lang=` in the link, or the one that was chosen before, or one that the
// browser asks for. An element with data-text="KEY" shows a text, and one with data-name="KEY" has it as its name.

import { texts as de } from "./texts-de.js";
import { texts as en } from "./texts-en.js";
import { texts as es } from "./texts-es.js";
import { texts as fr } from "./texts-fr.js";

const TABLES = { en, de, fr, es };
const COOKIE = "ljserve-language"; // which the live view finds at each port; a page in a frame of another site cannot set it
const SECONDS_KEPT = 31536000;
const listeners = [];
let language = wished();

export const languages = Object.keys(TABLES);
export const languageNow = () => language;

function wished() {
  const [inQuery, inHash] = [location.search, location.hash].map((part) => new URLSearchParams(part.slice(1)).get("lang"));
  const all = [inQuery, inHash, kept(), ...navigator.languages].map((each) => String(each).slice(0, 2).toLowerCase());
  return all.find((each) => Object.hasOwn(TABLES, each)) ?? "en";
}

// The language that was chosen before. A page that may have no cookies forgets it.
function kept() {
  try {
    return new RegExp(`(?:^|; )${COOKIE}=(\\w+)`).exec(document.cookie)?.[1];
  } catch {
    return undefined;
  }
}

function keep() {
  try {
    document.cookie = `${COOKIE}=${language}; path=/; max-age=${SECONDS_KEPT}; samesite=lax`;
  } catch {
    // It lasts for as long as the page.
  }
}

// The text of a key, with values by the names that it has in braces.
export function text(key, values = {}) {
  const entry = TABLES[language][key] ?? en[key];
  if (entry === undefined) throw new Error(`no text has the key ${key}`);
  const form = typeof entry === "string" ? entry : (entry[new Intl.PluralRules(language).select(values.count)] ?? entry.other);
  return form.replace(/\{(\w+)\}/g, (_, name) => values[name]);
}

// Takes in more texts: tables by their languages. What a language lacks is shown in English.
export function addTexts(tables) {
  for (const [name, table] of Object.entries(tables)) Object.assign(TABLES[name], table);
}

// Shows the texts of all elements within one.
export function showTexts(within = document) {
  for (const element of within.querySelectorAll("[data-text]")) element.textContent = text(element.dataset.text);
  for (const element of within.querySelectorAll("[data-name]")) element.setAttribute("aria-label", text(element.dataset.name));
}

// Calls a function whenever another language is chosen.
export const onLanguage = (changed) => listeners.push(changed);

export function choose(name) {
  language = name;
  keep();
  apply();
  for (const changed of listeners) changed();
}

function apply() {
  document.documentElement.lang = language;
  showTexts();
}

// Offers the languages, each by its own name.
export function offerLanguages(select) {
  select.replaceChildren(...languages.map((name) => Object.assign(new Option(TABLES[name].nameOfLanguage, name), { lang: name })));
  select.value = language;
  select.addEventListener("change", () => choose(select.value));
}

apply();
