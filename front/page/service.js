// SPDX-License-Identifier: Apache-2.0
/** The service: sign-on and sign-off over HTTP, and a terminal's lines over one WebSocket. */

// How many lines may be sent before the reply of the first one is read.
const WINDOW = 16;
// How long to wait before a lost connection is tried again, in milliseconds: twice as long each time, up to the last.
const [FIRST_WAIT, LAST_WAIT] = [500, 8000];
// How long a line that is to be sent waits for a connection, in milliseconds.
const PATIENCE = 10000;

/** What keeps the page from an answer of the service; its text says what happened and what to do. */
export class Trouble extends Error {}

/** A sign-on that was refused: `wait` is after how many seconds to try again, 0 if that is not said. */
export class SignOnRefused extends Trouble {
  constructor(text, wait = 0) {
    super(text);
    this.wait = wait;
  }
}

/** A line that was sent and has no reply: it may have been run or not. */
export class Unanswered extends Trouble {}

/** A line of the page itself that was answered by a code. */
export class AnsweredByCode extends Trouble {
  constructor(line, code, words) {
    super(`${line.slice(0, 120)}\nwas answered ${words}`);
    this.line = line;
    this.code = code;
  }
}

/** An address of the service, beside the page's own. */
function address(name, scheme = location.protocol) {
  const found = new URL(name, new URL(".", document.baseURI));
  found.protocol = scheme;
  return found;
}

async function asked(name, options = {}) {
  try {
    return await fetch(address(name), { credentials: "same-origin", cache: "no-store", ...options });
  } catch {
    throw new Trouble("The service cannot be reached. Try again, or ask its operator.");
  }
}

/** A text of the service as a sentence. */
function sentence(text) {
  const whole = text[0].toUpperCase() + text.slice(1);
  return /[.?!]$/.test(whole) ? whole : `${whole}.`;
}

/** What a refusal says for itself, or the words given if it says nothing. */
async function reason(response, words) {
  try {
    return sentence((await response.json()).error);
  } catch {
    return words;
  }
}

/** The record of the session that the browser has, or null. */
export async function session() {
  const response = await asked("session");
  return response.ok ? response.json() : null;
}

/** Signs a user on: the session's record. SignOnRefused with what to do if that is refused. */
export async function signOn(user, password) {
  const response = await asked("signon", {
    method: "POST", headers: { "Content-Type": "application/json" }, body: JSON.stringify({ user, password }),
  });
  if (response.ok) {
    return response.json();
  }
  const words = {
    401: "The user or the password is wrong.", 429: "There were too many tries.", 503: "All terminals of the account are in use.",
  };
  const wait = response.status === 429 ? Number.parseInt(response.headers.get("Retry-After"), 10) || 1 : 0;
  throw new SignOnRefused(await reason(response, words[response.status] ?? `The service answered with status ${response.status}.`), wait);
}

/** Gives the user another password; why it is not taken, or nothing. */
export async function changePassword(old, chosen) {
  const response = await asked("password", {
    method: "POST", headers: { "Content-Type": "application/json" }, body: JSON.stringify({ old, new: chosen }),
  });
  const words = { 403: "Your password is not right.", 429: "There were too many tries." };
  return response.ok ? "" : reason(response, words[response.status] ?? `The service answered with status ${response.status}.`);
}

/** Ends the session at the service. */
export async function signOff() {
  await asked("signoff", { method: "POST" });
}

/** A reply of the service as the page has it: lines of output, the unfinished rest, the code or null, and what is said besides. */
function replyOf(message) {
  if (message.refused !== undefined) {
    return { lines: [], rest: "", code: message.refused, why: message.why ?? "" };
  }
  const why = message.cut ? `${message.cut} bytes of the reply were left out: it is too long.` : "";
  return { lines: message.output ?? [], rest: message.rest ?? "", code: message.code ?? null, why };
}

/** A terminal's lines. A caller that runs several that belong together has the terminal alone meanwhile.
 *
 * `told` is called with what happens: ("state", "open" | "waiting" | "closed"), ("event", {..}), and ("again") once a lost connection is there
 * again, with a new session of the terminal. */
export class Terminal {
  #socket = null;
  #told;
  #due = new Map();
  #number = 0;
  #turn = Promise.resolve();
  #wait = FIRST_WAIT;
  #timer = 0;
  #isClosed = false;
  #generation;

  constructor(record, told) {
    this.#told = told;
    this.#generation = record.generation;
    this.#open(() => {});
  }

  /** Ends the connection; lines that are under way count as unanswered. */
  close() {
    this.#isClosed = true;
    clearTimeout(this.#timer);
    this.#socket.close();
    this.#lost();
  }

  /** Calls `act` with this terminal once all that was asked for before has ended, and gives what it gives. Trouble if there is no connection
   * for a while. */
  alone(act) {
    const done = this.#turn.then(() => this.#connected()).then(() => act(this));
    this.#turn = done.catch(() => {});
    return done;
  }

  /** The reply of one line, in its turn. Unanswered if it was sent and no reply came; Trouble if it could not be sent. */
  line(text) {
    return this.alone(() => this.send(text));
  }

  /** The reply of one line, at once: for the caller that has the terminal alone. */
  send(text) {
    if (this.#socket.readyState !== WebSocket.OPEN) {
      return Promise.reject(new Trouble("The line was not sent: there is no connection to the service."));
    }
    this.#number += 1;
    const id = this.#number;
    const reply = new Promise((taken, failed) => this.#due.set(id, { taken, failed }));
    this.#socket.send(JSON.stringify({ id, line: text, generation: this.#generation }));
    return reply;
  }

  /** The replies of lines, in their order, while further lines are on their way. It ends early where `texts` end. */
  async *pipeline(texts) {
    const [source, due] = [texts[Symbol.iterator](), []];
    let more = true;
    while (more || due.length) {
      while (more && due.length < WINDOW) {
        const next = source.next();
        more = !next.done;
        due.push(...(more ? [this.#quiet(next.value)] : []));
      }
      if (due.length) {
        yield await due.shift();
      }
    }
  }

  /** Sends a line whose reply is awaited later: until then a failure of it is nobody's. */
  #quiet(text) {
    const reply = this.send(text);
    reply.catch(() => {});
    return reply;
  }

  /** Waits until the connection is there. */
  async #connected() {
    const end = performance.now() + PATIENCE;
    while (this.#socket.readyState !== WebSocket.OPEN) {
      if (this.#isClosed || performance.now() > end) {
        throw new Trouble("The line was not sent: there is no connection to the service.");
      }
      await new Promise((taken) => setTimeout(taken, 50));
    }
  }

  #open(opened) {
    const socket = new WebSocket(address("ws", location.protocol === "https:" ? "wss:" : "ws:"));
    this.#socket = socket;
    socket.addEventListener("open", () => {
      this.#wait = FIRST_WAIT;
      this.#told("state", "open");
      opened();
    });
    socket.addEventListener("message", (event) => this.#take(event.data));
    socket.addEventListener("close", () => this.#ended());
  }

  #take(data) {
    const message = JSON.parse(data);
    if (message.event !== undefined) {
      this.#generation = message.generation ?? this.#generation;
      this.#told("event", message);
      return;
    }
    const due = this.#due.get(message.id);
    this.#due.delete(message.id);
    if (message.unknown) {
      due?.failed(new Unanswered(sentence(message.why || "the line has no reply: it may have been run or not")));
    } else if (message.refused === "restarted") {
      due?.failed(new Trouble(sentence(message.why)));
    } else {
      due?.taken(replyOf(message));
    }
  }

  #ended() {
    this.#lost();
    if (this.#isClosed) {
      return;
    }
    this.#told("state", "waiting");
    this.#timer = setTimeout(() => this.#again(), this.#wait);
    this.#wait = Math.min(this.#wait * 2, LAST_WAIT);
  }

  /** Connects again if the session is still there; a service that cannot be reached is tried later. */
  async #again() {
    try {
      const record = await session();
      if (!this.#isClosed && record) {
        this.#generation = record.generation;
        this.#open(() => this.#told("again"));
      } else if (!this.#isClosed) {
        this.#told("state", "closed");
      }
    } catch {
      this.#ended();
    }
  }

  #lost() {
    for (const due of this.#due.values()) {
      due.failed(new Unanswered("The connection to the service was lost: the line may have been run or not."));
    }
    this.#due.clear();
  }
}
