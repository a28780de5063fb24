// SPDX-License-Identifier: Apache-2.0
/** The terminal: a line to type, lines that were run with their replies in place, and the lines of before. */
import { advice, faultOf, inWords, pointed } from "./language.js";
import { confirmed } from "./dialog.js";
import { byId, counted, make, visible } from "./dom.js";

const MOST_ENTRIES = 1000;
const MOST_HISTORY = 500;

/** The view of a terminal. `send` runs a line and gives its reply; `learned` is called with each line that is typed; `language` asks for the
 * account's language. */
export class Prompt {
  #send;
  #learned;
  #language;
  #log = byId("log");
  #line = byId("line");
  #history = [];
  #at = 0;
  #unfinished = "";

  constructor(send, learned, language) {
    this.#send = send;
    this.#learned = learned;
    this.#language = language;
    byId("prompt").addEventListener("submit", (event) => this.#submit(event));
    this.#line.addEventListener("keydown", (event) => this.#key(event));
    this.#line.addEventListener("paste", (event) => this.#paste(event));
  }

  /** Forgets all lines and replies. */
  clear() {
    this.#log.replaceChildren();
    this.#line.value = "";
    this.#history = [];
    this.#at = 0;
  }

  /** Shows a note between the lines. */
  note(text) {
    this.#add(make("p", { class: "note" }, text));
  }

  /** Runs a line as if it were typed; gives whether it was run to its end. */
  async run(text) {
    this.#learned(text);
    const reply = make("div", { class: "reply" }, make("p", { class: "pending" }, "running"));
    this.#add(make("div", { class: "entry" }, make("p", { class: "sent" }, visible(text)), reply));
    try {
      const answer = await this.#send(text);
      // A line that the server has read was ASCII there: what is not stands for escapes in strings.
      const found = answer.code === "ZSYNTAX" ? await faultOf(text.replace(/[^\x00-\x7f]/g, "x"), this.#language).catch(() => null) : null;
      reply.replaceChildren(...shownReply(answer, text, found));
      this.#scroll();
      return answer.code === null;
    } catch (error) {
      reply.replaceChildren(make("p", { class: "code-of-fault" }, error.message));
      this.#scroll();
      return false;
    }
  }

  #add(entry) {
    this.#log.append(entry);
    while (this.#log.children.length > MOST_ENTRIES) {
      this.#log.firstElementChild.remove();
    }
    this.#scroll();
  }

  #scroll() {
    this.#log.scrollTop = this.#log.scrollHeight;
  }

  #submit(event) {
    event.preventDefault();
    const text = this.#line.value;
    if (!text.trim()) {
      return;
    }
    this.#line.value = "";
    this.#remember(text);
    this.run(text);
  }

  #remember(text) {
    if (this.#history.at(-1) !== text) {
      this.#history.push(text);
    }
    this.#history.splice(0, this.#history.length - MOST_HISTORY);
    this.#at = this.#history.length;
  }

  #key(event) {
    if (event.key === "ArrowUp" || event.key === "ArrowDown") {
      event.preventDefault();
      this.#recall(event.key === "ArrowUp" ? -1 : 1);
    } else if (event.key === "Escape") {
      this.#line.value = "";
    }
  }

  #recall(step) {
    const at = this.#at + step;
    if (at < 0 || at > this.#history.length) {
      return;
    }
    if (this.#at === this.#history.length) {
      this.#unfinished = this.#line.value;
    }
    this.#at = at;
    this.#line.value = at === this.#history.length ? this.#unfinished : this.#history[at];
    this.#line.setSelectionRange(this.#line.value.length, this.#line.value.length);
  }

  /** Several lines that are pasted are shown first: what is run cannot be taken back. */
  #paste(event) {
    const text = event.clipboardData.getData("text").replaceAll("\r\n", "\n").replace(/\n+$/, "");
    if (text.includes("\n")) {
      event.preventDefault();
      this.several(text);
    }
  }

  /** Asks whether to run several lines, and runs them up to the first code, or to the end if that is wanted. */
  async several(text) {
    const area = make("textarea", { class: "code", rows: 10, wrap: "off", spellcheck: "false", "aria-label": "Lines to run" });
    area.value = text;
    const all = make("input", { type: "checkbox", id: "run-all" });
    const isYes = await confirmed({
      question: `Run ${counted(text.split("\n").length, "line")}?`, about: "They are run one after the other, up to the first that ends in a code.", yes: "Run",
      body: [area, make("p", {}, all, make("label", { for: "run-all" }, " go on after a code"))],
    });
    if (!isYes) {
      return;
    }
    const lines = area.value.split("\n").filter((line) => line.trim());
    for (const [number, line] of lines.entries()) {
      this.#remember(line);
      if (!await this.run(line) && !all.checked && number + 1 < lines.length) {
        this.note(`Stopped here: ${counted(lines.length - number - 1, "line")} not run.`);
        return;
      }
    }
  }
}

/** The elements that show a reply of a line, and where it leaves the language, if it does. */
function shownReply(reply, text, found) {
  const output = reply.rest ? [...reply.lines, reply.rest] : reply.lines;
  const shown = output.length ? [make("pre", {}, output.map(visible).join("\n"))] : [];
  if (found) {
    shown.push(make("pre", { class: "code-of-fault" }, pointed(visible(text), found).join("\n")));
  } else if (reply.code !== null) {
    const more = reply.why || advice(reply.code);
    shown.push(make("p", { class: "code-of-fault" }, inWords(reply.code), ...(more ? [make("span", { class: "advice" }, ` ${more}`)] : [])));
  }
  if (reply.code === null && reply.why) {
    shown.push(make("p", { class: "note" }, reply.why));
  }
  return shown.length ? shown : [make("p", { class: "done" }, "✓", make("span", { class: "unseen" }, " done"))];
}
