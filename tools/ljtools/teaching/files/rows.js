// How the wall writes what a student has.

export function made(kind, name, ...inside) {
  const element = document.createElement(kind);
  element.className = name;
  element.append(...inside);
  return element;
}

export const stepText = (step) => step.toLocaleString("en").replace("-", "−");
export const nameOf = ({ name }) => name || "(page)";

// A session: its name, its atoms, its step, and the direction of time.
export function sessionOf(session) {
  const isForward = session.direction > 0;
  const arrow = made("span", "", isForward ? "→" : "←");
  arrow.ariaHidden = "true";
  const where = made("span", "where", `step ${stepText(session.step)} `, arrow, made("span", "unseen", isForward ? "forward" : "backward"));
  return made("p", "session", made("span", "", `${nameOf(session)} · ${session.atoms.toLocaleString("en")} atoms`), where);
}
