// What the static page has beside the view: commands and their replies, a file of the user's, and a record.

import { fileName, load, talk } from "./page.js";
import { examples } from "./examples.js";
import { download } from "./saving.js";
import { MAX_BYTES } from "./scenes.js";
import { text } from "./texts.js";
import { Typed } from "./typed.js";

const part = (name) => document.getElementById(name);
// Nothing of the state is of the page's begin any more, which another language would show again.
const told = (state) => {
  part("state").removeAttribute("data-text");
  part("state").textContent = state;
};

async function open({ target }) {
  const [file] = target.files;
  if (file) await load({ file: file.name, size: file.size, ...(file.size <= MAX_BYTES ? { text: await file.text() } : {}) });
  target.value = ""; // the same file may be chosen again
}

async function saveRecord() {
  const { record } = await talk.ask({ do: "record" });
  if (record) download(`${fileName()}.lj`, new Blob([record], { type: "text/plain" }));
}

const typed = new Typed(talk, told);
typed.offer(examples);
part("anew").onclick = () => location.reload();
part("file").onchange = open;
part("record").onclick = saveRecord;
try {
  const { program, name, sum } = await talk.transport.running;
  program.listeners.push((answer) => typed.hear(answer));
  [part("module").textContent, part("sum").textContent] = [name, sum];
  part("send").disabled = false;
  told(text("programRuns"));
} catch (error) {
  told(text("cannotRun", { why: error.message }));
}
