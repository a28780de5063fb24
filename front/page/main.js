// SPDX-License-Identifier: Apache-2.0
/** The page: sign-on, its parts, and sign-off. */
import { languageOf } from "./checking.js";
import { COMMANDS, FUNCTIONS } from "./codes.js";
import { confirmed, shown } from "./dialog.js";
import { byId, make, setAttribute, tell } from "./dom.js";
import { Globals } from "./globals.js";
import { ask, forget } from "./password.js";
import { Prompt } from "./prompt.js";
import { RoutineEditor } from "./editor.js";
import { SignOnRefused, Terminal, session, signOff, signOn } from "./service.js";
import { Tabs } from "./tabs.js";

/** The state of a page with a user; null while nobody is signed on. */
let signedOn = null;
// What was not saved when a session ended by itself, for the same user's next sign-on: it is kept in this page alone.
let unsaved = null;

// The reason for a sign-off, in words.
const WHYS = {
  idle: "You were signed off: nothing was done for a while.", replaced: "You were signed off here: the page was opened in another place.",
  removed: "You were signed off: your user or password was changed.", stopping: "You were signed off: the service was stopped.",
  moved: "You were signed off: your account has moved to another machine. Sign on again.",
};

const tabs = new Tabs();
const prompt = new Prompt((text) => signedOn.terminal.line(text), (text) => globals.learn(text), () => signedOn.terminal.alone(languageOf));
const globals = new Globals(() => signedOn.terminal);
const editor = new RoutineEditor(() => signedOn.terminal, (text) => globals.learn(text), (line) => {
  tabs.show("terminal");
  prompt.run(line);
});

byId("sign-on").addEventListener("submit", (event) => {
  event.preventDefault();
  trySignOn();
});
byId("sign-off").addEventListener("click", leave);
byId("change-password").addEventListener("click", () => ask(signedOn.record.user).catch((error) => tell(error.message, "fault")));
byId("help").addEventListener("click", () => shown("The language", [
  make("p", {}, "Commands and functions, whole or by their short words. ",
    make("a", { id: "language", href: "page/language.html", target: "_blank", rel: "noopener" }, "The whole language"), "."),
  make("pre", { tabindex: "0" }, [...Object.values(COMMANDS), "", ...Object.values(FUNCTIONS)].join("\n")),
]));
tabs.opened("globals", () => globals.opened());
tabs.opened("routines", () => editor.opened());
window.addEventListener("beforeunload", (event) => {
  if (signedOn && editor.isChanged) {
    event.preventDefault();
  }
});
begin();

/** Shows the application if the browser has a session, else the form of sign-on. */
async function begin() {
  try {
    const record = await session();
    if (record) {
      enter(record);
      return;
    }
    showDoor("");
  } catch (error) {
    showDoor(error.message);
  }
}

async function trySignOn() {
  const [user, password] = [byId("user"), byId("password")];
  const button = byId("sign-on").querySelector("button");
  button.disabled = true;
  byId("sign-on-fault").textContent = "";
  try {
    const record = await signOn(user.value, password.value);
    forget(password, byId("show-password"));
    button.disabled = false;
    enter(record);
  } catch (error) {
    forget(password, byId("show-password"));
    byId("sign-on-fault").textContent = error.message;
    await held(error instanceof SignOnRefused ? error.wait : 0);
    button.disabled = false;
    password.focus();
  }
}

/** Counts the seconds that the service wants before another try. */
async function held(seconds) {
  const text = byId("sign-on-fault").textContent;
  for (let left = seconds; left > 0; left -= 1) {
    byId("sign-on-fault").textContent = `${text} Try again in ${left} s.`;
    await new Promise((taken) => setTimeout(taken, 1000));
  }
  byId("sign-on-fault").textContent = text;
}

function showDoor(text) {
  byId("app").hidden = true;
  byId("door").hidden = false;
  byId("sign-on-fault").textContent = text;
  document.title = "Sign on · mserve";
  (byId("user").value ? byId("password") : byId("user")).focus();
}

function enter(record) {
  signedOn = { record, terminal: new Terminal(record, heard), isLeaving: false };
  byId("who-account").textContent = record.account;
  byId("who-user").textContent = record.user;
  byId("who-terminal").textContent = `terminal ${record.terminal}`;
  byId("volatile").hidden = !record.volatile;
  document.title = `${record.account} · mserve`;
  byId("door").hidden = true;
  byId("app").hidden = false;
  heard("state", "waiting");
  if (unsaved && unsaved.user === record.user && unsaved.account === record.account) {
    editor.takeBack(unsaved.draft);
    tell("The routine that was not saved is in the editor again.");
  }
  unsaved = null;
  tabs.show("terminal");
  byId("line").focus();
}

/** What the terminal tells: the state of its connection, and events of the service. */
function heard(kind, what) {
  if (kind === "state") {
    byId("connection").className = what;
    byId("connection-text").textContent = { open: "connected", waiting: "connecting…", closed: "signed off" }[what];
    if (what === "closed") {
      ended("Your session has ended. Sign on again.");
    }
  } else if (kind === "again") {
    prompt.note("The connection was lost and is there again: local variables and locks are gone.");
  } else if (what.event === "restarted") {
    byId("volatile").hidden = !what.volatile;
    prompt.note(`The server was started again: local variables and locks are gone${what.volatile ? ", and so is what was stored" : ""}.`);
    tell("The server was started again.");
  } else if (what.event === "quota") {
    prompt.note(what.why ? `${what.why[0].toUpperCase()}${what.why.slice(1)}.` : "The account is within its quota again.");
  } else if (what.event === "signed-off") {
    ended(WHYS[what.why] ?? "You were signed off.");
  }
}

/** The session ended by itself: what was not saved is kept for the same user. */
function ended(text) {
  if (!signedOn || signedOn.isLeaving) {
    return;
  }
  const draft = editor.draft();
  unsaved = draft && { user: signedOn.record.user, account: signedOn.record.account, draft };
  close();
  showDoor(text);
}

/** Signs off, after a question if something is not saved. */
async function leave() {
  if (editor.isChanged && !await confirmed({ question: "Sign off?", about: `The routine ${editor.name} is not saved.`, yes: "Sign off", isDanger: true })) {
    return;
  }
  signedOn.isLeaving = true;
  try {
    await signOff();
    close();
    byId("user").value = "";
    showDoor("");
  } catch (error) {
    signedOn.isLeaving = false;
    tell(error.message, "fault");
  }
}

/** Takes everything of a user from the page. */
function close() {
  signedOn.terminal.close();
  signedOn = null;
  prompt.clear();
  globals.clear();
  editor.clear();
  byId("notices").replaceChildren();
  byId("dialogs").querySelectorAll("dialog").forEach((dialog) => dialog.close());
  for (const id of ["who-account", "who-user", "who-terminal"]) {
    byId(id).textContent = "";
  }
  setAttribute(byId("volatile"), "hidden", true);
}
