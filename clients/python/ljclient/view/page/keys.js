// Keys: each presses a button, wherever the focus is, but not while text is typed into a field, nor when they are turned off. `?` shows them.

import { onLanguage, text } from "./texts.js";

// One that may be held presses its button again as soon as the last press is done.
const KEYS = [
  { key: " ", name: "keySpace", button: "play" },
  { key: ".", button: "one", mayBeHeld: true },
  { key: "r", button: "reverse" },
  { key: "e", button: "exact" },
  { key: "s", button: "save" },
  { key: "b", button: "restore" },
  { key: "d", button: "second" },
  { key: "home", name: "keyHome", button: "restart" },
];
const OTHERS = [["keyEnter", "enterDoes"], ["keyEscape", "escapeDoes"], ["keyArrows", "arrowsDo"]];
const FIELDS = "textarea, input:not([type=range]), [contenteditable]";

// Listens to the keys of a page, and lists them in an element that pops up. `isIdle` tells whether the last press is done.
export function listenToKeys(page, list, isIdle) {
  const press = list.querySelector("#keys-press");
  const shows = page.getElementById("shows-keys");
  const keyOf = (event) => {
    const free = !(event.ctrlKey || event.metaKey || event.altKey) && !page.activeElement?.matches(FIELDS) && press.checked;
    return free && KEYS.find(({ key }) => key === event.key.toLowerCase());
  };
  page.addEventListener("keydown", (event) => {
    const key = keyOf(event);
    if (key) {
      event.preventDefault();
      if (!event.repeat || (key.mayBeHeld && isIdle())) page.getElementById(key.button).click();
    } else if (event.key === "?" && !event.repeat && press.checked && !page.activeElement?.matches(FIELDS)) {
      event.preventDefault();
      if (list.matches(":popover-open")) list.hidePopover();
      else list.showPopover({ source: shows }); // so that the focus goes on from the button to what is shown
    }
  });
  // Some browsers press the focused button when the key is let go.
  page.addEventListener("keyup", (event) => keyOf(event) && event.preventDefault());
  const tell = () => list.querySelector("dl").replaceChildren(...rows(page).flat());
  onLanguage(tell);
  tell();
}

// The keys and what they do, in the language that is chosen. Each is shown beside its button too.
function rows(page) {
  const ofButtons = KEYS.map(({ key, name, button }) => {
    const shown = name ? text(name) : key.toUpperCase();
    const element = page.getElementById(button);
    [element.title, element.ariaKeyShortcuts] = [shown, key === " " ? "Space" : key.length > 1 ? "Home" : key.toUpperCase()];
    return row(page, shown, text(`${button}ByKey`));
  });
  return [...ofButtons, ...OTHERS.map(([name, does]) => row(page, text(name), text(does))), row(page, "?", text("questionMarkDoes"))];
}

function row(page, name, does) {
  const [term, meaning] = [page.createElement("dt"), page.createElement("dd")];
  [term.textContent, meaning.textContent] = [name, does];
  return [term, meaning];
}
