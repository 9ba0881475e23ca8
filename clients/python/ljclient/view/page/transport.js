// The way from the page to its program: one WebSocket to the client in Python, which serves the page. A page that has its program itself
// has another file in place of this one.

const GOING_AWAY = 1001; // of a WebSocket whose server ends

export class Transport {
  // `heard` is told each message of the other side, and `ended` once that there will be no more, and whether the view itself has ended.
  constructor(heard, ended) {
    const scheme = location.protocol === "https:" ? "wss:" : "ws:";
    this.socket = new WebSocket(`${scheme}//${location.host}${location.pathname}session`);
    this.socket.onmessage = (event) => heard(JSON.parse(event.data));
    this.socket.onclose = ({ code }) => ended(code === GOING_AWAY);
  }

  get isOpen() {
    return this.socket.readyState === WebSocket.OPEN;
  }

  send(message) {
    this.socket.send(JSON.stringify(message));
  }
}
