// The way from the page to the class: a student who comes by the link of a slip is let in by its token, and then has a WebSocket. If that
// is lost, the page comes back by its cookie as soon as the class can be reached.

const AGAIN = 200; // milliseconds until a class that cannot be reached is asked again
const PATIENCE = 3000; // milliseconds until it is taken as one
const LOST = "The class cannot be reached. This page goes on when it can.";
const UNKNOWN = "The class was lost before it answered: look whether this was done.";

// What stands behind # in a link: a name and a token, which go to no server in the address.
function slipIn(hash) {
  const found = /^#([A-Za-z0-9_-]{1,16})\.([A-Za-z0-9]{32})$/.exec(hash);
  return found && { name: found[1], token: found[2] };
}

// Posts words to the class. The status of the answer and its text, or nothing where there is none.
export async function post(path, words) {
  try {
    const answer = await fetch(path, { method: "POST", headers: { "Content-Type": "application/json" }, body: JSON.stringify(words) });
    return { status: answer.status, text: await answer.text() };
  } catch {
    return null;
  }
}

export class Transport {
  // `heard` is told each message of the other side, and `ended` once that there will be no more.
  constructor(heard, ended) {
    Object.assign(this, { heard, ended, socket: null, isAsking: false, isIn: false, wasIn: false, isOver: false });
    this.unanswered = 0; // how many questions are
    this.begin();
  }

  get isOpen() {
    return this.isAsking || this.socket?.readyState === WebSocket.OPEN;
  }

  send(message) {
    if (this.isAsking) return this.enter(message);
    this.unanswered++;
    this.socket.send(JSON.stringify(message));
  }

  // Goes on as the student of the link, or as the one whose cookie this browser has.
  async begin() {
    const slip = slipIn(location.hash);
    if (location.hash) history.replaceState(null, "", location.pathname);
    if (slip) return this.enter(slip);
    const name = await this.who();
    if (name === null) this.end();
    else if (name) this.join();
    else this.ask("", "");
  }

  // The student whose cookie this browser has, or nothing where the class cannot be reached.
  who() {
    return fetch("who", { signal: AbortSignal.timeout(PATIENCE) }).then((answer) => answer.text()).catch(() => null);
  }

  async enter({ name = "", token = "" }) {
    this.isAsking = false;
    const answer = await post("in", { name: name.trim(), token });
    if (!answer) this.end();
    else if (answer.status === 200) this.join();
    else this.ask(name, answer.text);
  }

  ask(name, why) {
    this.isAsking = true;
    this.heard({ asks: "slip", known: { name }, why: why && `${why[0].toUpperCase()}${why.slice(1)}` });
  }

  join() {
    const [scheme, folder] = [location.protocol === "https:" ? "wss:" : "ws:", location.pathname.replace(/[^/]*$/, "")];
    this.socket = new WebSocket(`${scheme}//${location.host}${folder}session`);
    this.socket.onmessage = (event) => this.hear(JSON.parse(event.data));
    this.socket.onclose = () => this.lose();
  }

  // The first answer comes unasked. If that is a refusal, or one that says so, all has ended.
  hear(answer) {
    if (!answer.news && !answer.waits) {
      if (this.isIn) this.unanswered--;
      else if (answer.error) this.wasIn = false;
      else this.isIn = this.wasIn = true;
    }
    this.isOver ||= Boolean(answer.ended);
    this.heard(answer);
  }

  // Comes back, if it was in and nothing has said that this is the end. Nobody knows what becomes of questions that are not answered.
  lose() {
    if (this.isOver || !this.wasIn) return this.end();
    this.isIn = false;
    for (; this.unanswered > 0; this.unanswered--) this.heard({ error: UNKNOWN });
    this.heard({ waits: LOST });
    this.comeBack();
  }

  async comeBack() {
    const name = await this.who();
    if (name === null) setTimeout(() => this.comeBack(), AGAIN);
    else if (name) this.join();
    else this.ask("", "");
  }

  end() {
    if (!this.isOver) this.ended(false);
    this.isOver = true;
  }
}
