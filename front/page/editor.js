// SPDX-License-Identifier: Apache-2.0
/** Routines in an editor with line numbers: saved whole, and checked line by line. */
import { check } from "./checking.js";
import { FILE_ENDING } from "./codes.js";
import { confirmed } from "./dialog.js";
import { byId, counted, make, setAttribute, tell } from "./dom.js";
import { isName } from "./mtext.js";
import { BadText, isLine, load, nodesOf, remove, sourceLines, textOf } from "./routines.js";
import { routineNames } from "./walk.js";

// Control characters but the tab: an editor of lines cannot give them back as they were.
const UNSHOWN = /[\x00-\x08\x0a-\x1f\x7f]/;
const BUTTONS = ["routine-save", "routine-check", "routine-run", "routine-file", "routine-delete"];

/** The editor of routines. `terminal` gives the user's terminal, `learned` is called with texts that name globals, and `run` runs a line. */
export class RoutineEditor {
  #terminal;
  #learned;
  #run;
  #name = "";
  #saved = "";
  #base = [];
  #findings = [];
  #count = 0;
  #source = byId("source");
  #choice = byId("routine-choice");

  constructor(terminal, learned, run) {
    this.#terminal = terminal;
    this.#learned = learned;
    this.#run = run;
    const acts = {
      "routine-new": () => this.#new(), "routine-again": () => this.#again(), "routine-save": () => this.#save(), "routine-check": () => this.#check(),
      "routine-run": () => this.#start(), "routine-file": () => this.#file(), "routine-delete": () => this.#delete(),
    };
    for (const [id, act] of Object.entries(acts)) {
      byId(id).addEventListener("click", () => this.#guarded(act));
    }
    this.#choice.addEventListener("change", () => this.#guarded(() => this.#chosen(this.#choice.value)));
    this.#source.addEventListener("input", () => this.#typed());
    this.#source.addEventListener("scroll", () => this.#aligned());
    this.#source.addEventListener("keydown", (event) => this.#key(event));
    document.addEventListener("selectionchange", () => this.#placed());
  }

  /** The name of the routine in the editor; empty if there is none. */
  get name() {
    return this.#name;
  }

  /** Whether there is a text that is not saved. */
  get isChanged() {
    return this.#name !== "" && this.#source.value !== this.#saved;
  }

  /** What is not saved, or null. */
  draft() {
    return this.isChanged ? { name: this.#name, text: this.#source.value, saved: this.#saved, base: this.#base } : null;
  }

  /** Takes what was not saved into the editor. */
  takeBack(draft) {
    this.#take(draft.name, draft.saved, draft.base);
    this.#source.value = draft.text;
    this.#typed();
  }

  /** Forgets everything of a user. */
  clear() {
    this.#choice.replaceChildren();
    this.#take("", "", []);
  }

  /** The part is opened: its list is read. */
  opened() {
    this.#guarded(() => this.#list());
  }

  async #guarded(act) {
    try {
      await act();
    } catch (error) {
      tell(error.message, "fault");
      if (error instanceof BadText) {
        this.#goTo(error.line, error.column);
      }
    }
  }

  async #list() {
    const names = await this.#terminal().alone(routineNames);
    const all = this.#name && !names.includes(this.#name) ? [...names, this.#name].sort() : names;
    const none = make("option", { value: "" }, all.length ? "Choose a routine" : "No routines");
    this.#choice.replaceChildren(none, ...all.map((name) => make("option", { value: name }, name)));
    this.#choice.value = this.#name;
  }

  /** Whether what is in the editor may go: it is saved, or a user says so. */
  #mayGo() {
    const about = `The routine ${this.#name} is changed and not saved.`;
    return !this.isChanged || confirmed({ question: "Leave it unsaved?", about, yes: "Leave it", isDanger: true });
  }

  async #chosen(name) {
    if (!await this.#mayGo()) {
      this.#choice.value = this.#name;
      return;
    }
    await (name ? this.#read(name) : this.#take("", "", []));
  }

  async #read(name) {
    const all = await this.#terminal().alone((own) => nodesOf(own, name));
    const texts = all.filter(isLine).map(([, text]) => text);
    const bad = texts.findIndex((text) => UNSHOWN.test(text));
    if (bad >= 0) {
      this.#choice.value = this.#name;
      throw new Error(`${name}: its line ${bad + 1} has a control character, which an editor of lines cannot keep: change it by a line of the terminal.`);
    }
    texts.forEach((text) => this.#learned(text));
    this.#take(name, texts.map((text) => `${text}\n`).join(""), all);
  }

  /** Reads the list and the routine again. */
  async #again() {
    if (this.#name && await this.#mayGo()) {
      await this.#read(this.#name);
    }
    await this.#list();
  }

  /** Has a routine in the editor. */
  #take(name, text, base) {
    this.#name = name;
    this.#saved = text;
    this.#base = base;
    this.#findings = [];
    this.#source.value = text;
    this.#source.scrollTop = 0;
    this.#source.disabled = name === "";
    for (const id of BUTTONS) {
      byId(id).disabled = name === "";
    }
    if ([...this.#choice.options].some((option) => option.value === name)) {
      this.#choice.value = name;
    }
    this.#showFindings();
    this.#typed();
  }

  async #new() {
    const field = make("input", { id: "new-routine", class: "code", autocomplete: "off", autocapitalize: "characters", spellcheck: "false", maxlength: 31 });
    const file = make("input", { id: "new-file", type: "file", accept: FILE_ENDING });
    const body = [make("label", { for: "new-routine" }, "Name"), field,
      make("label", { for: "new-file" }, `Lines from a file NAME${FILE_ENDING}, if you have one`), file];
    if (!await this.#mayGo() || !await confirmed({ question: "A new routine", yes: "Open", body })) {
      return;
    }
    const name = field.value.trim() || nameOf(file.files[0]?.name ?? "");
    if (!isName(name)) {
      throw new Error("A routine's name begins with a letter or %, and has at most 31 letters and digits.");
    }
    const text = file.files[0] ? (await file.files[0].text()).replaceAll("\r\n", "\n") : null;
    await this.#read(name);
    const isThere = this.#base.length > 0;
    if (text !== null || !isThere) {
      this.#source.value = text ?? `${name} ;\n`;
      this.#typed();
    }
    if (isThere) {
      tell(`The routine ${name} is there already${text === null ? "." : ": Save replaces it."}`);
    }
    await this.#list();
    this.#source.focus();
  }

  /** The lines in the editor, checked. */
  async #checked() {
    const lines = sourceLines(this.#source.value);
    this.#findings = await this.#terminal().alone((own) => check(own, lines));
    this.#showFindings();
    return lines;
  }

  async #check() {
    const lines = await this.#checked();
    tell(this.#findings.length ? `${counted(this.#findings.length, "line")} not in the language.` : `${counted(lines.length, "line")}, all in the language.`);
  }

  /** Saves the routine whole, after questions if lines are not in the language or somebody else has changed it; whether it is saved. */
  async #save() {
    const [name, text] = [this.#name, this.#source.value];
    const lines = await this.#checked();
    const count = this.#findings.length;
    if (count && !await confirmed({
      question: `Save ${name} all the same?`, about: `${counted(count, "line")} not in the language: each ends in ZSYNTAX once it is reached.`, yes: "Save",
    })) {
      return false;
    }
    const now = await this.#terminal().alone((own) => nodesOf(own, name));
    if (JSON.stringify(now) !== JSON.stringify(this.#base) && !await confirmed({
      question: `Replace ${name}?`, about: "Somebody else has changed it since it was read.", yes: "Replace", isDanger: true,
    })) {
      return false;
    }
    const others = await this.#terminal().alone((own) => load(own, name, lines.map(textOf), now));
    this.#base = lines.map((line, number) => [[name, String(number + 1)], textOf(line)]);
    this.#saved = text;
    lines.forEach((line) => this.#learned(line.rest));
    this.#typed();
    tell(`${name}: ${counted(lines.length, "line")} saved.${others ? ` ${counted(others, "node")} of it that were no lines are gone.` : ""}`);
    await this.#list();
    return true;
  }

  /** Runs the routine in the terminal; what is changed is saved before. */
  async #start() {
    if (!this.isChanged || await this.#save()) {
      this.#run(`D ^${this.#name}`);
    }
  }

  /** Gives the routine as a file to the browser. */
  #file() {
    const text = new Blob([this.#source.value], { type: "text/plain" });
    const link = make("a", { href: URL.createObjectURL(text), download: this.#name.replace("%", "_") + FILE_ENDING });
    link.click();
    setTimeout(() => URL.revokeObjectURL(link.href), 1000);
  }

  async #delete() {
    const name = this.#name;
    const about = `All that stands below ^ROUTINE("${name}") goes. That cannot be taken back.`;
    if (!await confirmed({ question: `Delete the routine ${name}?`, about, yes: "Delete", isDanger: true })) {
      return;
    }
    await this.#terminal().alone((own) => remove(own, name));
    this.#take("", "", []);
    await this.#list();
    tell(`${name} is deleted.`);
  }

  #key(event) {
    if ((event.ctrlKey || event.metaKey) && event.key.toLowerCase() === "s") {
      event.preventDefault();
      this.#guarded(() => this.#save());
    }
  }

  /** The text has changed: so have the numbers of its lines. */
  #typed() {
    const count = this.#name ? this.#source.value.split("\n").length : 0;
    if (count !== this.#count) {
      this.#count = count;
      this.#number();
    }
    byId("source-state").textContent = this.#name ? (this.isChanged ? "not saved" : "saved") : "";
    this.#aligned();
    this.#placed();
  }

  /** Numbers the lines; those that are not in the language are marked. */
  #number() {
    const marked = new Set(this.#findings.map((finding) => finding.line));
    const parts = [];
    let plain = "";
    for (let number = 1; number <= this.#count; number += 1) {
      if (marked.has(number)) {
        parts.push(plain, make("span", { class: "marked" }, String(number)));
        plain = "\n";
      } else {
        plain += `${number}\n`;
      }
    }
    byId("number-lines").replaceChildren(...parts, plain);
  }

  #aligned() {
    byId("number-lines").style.transform = `translateY(${-this.#source.scrollTop}px)`;
  }

  #placed() {
    const before = this.#source.value.slice(0, this.#source.selectionStart).split("\n");
    byId("source-place").textContent = this.#name ? `${this.#name} · line ${before.length}, column ${before.at(-1).length + 1}` : "";
  }

  #showFindings() {
    this.#number();
    byId("findings").hidden = this.#findings.length === 0;
    byId("findings").replaceChildren(...this.#findings.map((finding) => {
      const advice = finding.advice ? [make("span", { class: "advice" }, finding.advice)] : [];
      const at = make("span", { class: "at" }, `${finding.line}:${finding.column}`);
      const button = make("button", { type: "button", class: "finding" }, at, make("span", {}, finding.message), ...advice);
      button.addEventListener("click", () => this.#goTo(finding.line, finding.column));
      return make("li", {}, button);
    }));
    setAttribute(this.#source, "aria-invalid", this.#findings.length ? "true" : null);
  }

  /** Moves to a place in the text. */
  #goTo(line, column) {
    const lines = this.#source.value.split("\n");
    const start = lines.slice(0, line - 1).reduce((sum, text) => sum + text.length + 1, 0);
    this.#source.focus();
    this.#source.setSelectionRange(start + column - 1, start + (lines[line - 1] ?? "").length);
    const height = this.#source.scrollHeight / Math.max(1, lines.length);
    this.#source.scrollTop = Math.max(0, (line - 3) * height);
  }
}

/** The routine of a file's name: NAME of NAME.m, and %NAME of _NAME.m. */
function nameOf(file) {
  return file.endsWith(FILE_ENDING) ? file.slice(0, -FILE_ENDING.length).replace(/^_/, "%") : "";
}
