// SPDX-License-Identifier: Apache-2.0
/** The account's globals as a tree that loads as it is opened, and the node that is chosen.
 *
 * No line of the language lists names: they come from the routines' text, from the lines of this session and from what is typed. */
import { confirmed } from "./dialog.js";
import { byId, counted, make, setAttribute, tell } from "./dom.js";
import { faultOfCharacters, faultOfSubscript, isName, isReference, namesIn, quoted, reference, setLines, unquoted, written } from "./mtext.js";
import { Tree } from "./tree.js";
import { allChildren, asked, askedAll, children, nodeAt, placeOf, withLocal, withReference } from "./walk.js";
import { LONGEST_TEXT, MOST_SUBSCRIPTS, ROUTINE } from "./codes.js";

// How many lines of routines are read for names before a user is asked.
const MOST_LINES = 2000;
// Characters that a field of several lines does not give back as they were.
const UNSHOWN = /[\x00-\x08\x0b-\x1f\x7f]/;

/** The view of globals; `terminal` gives the terminal of the user. */
export class Globals {
  #terminal;
  #names = new Set(["ROUTINE"]);
  #shown = new Set();
  #tree;
  #chosen = null;
  #isSearched = false;

  constructor(terminal) {
    this.#terminal = terminal;
    this.#tree = new Tree(byId("tree"), {
      load: (item, after) => this.#terminal().alone((own) => children(own, item.name, item.subscripts, after)),
      choose: (item) => this.#choose(item), kill: () => this.#guarded(() => this.#kill()), edit: () => byId("node-text").focus(),
      failed: (error) => tell(error.message, "fault"),
    });
    byId("globals-open").addEventListener("submit", (event) => {
      event.preventDefault();
      this.#guarded(() => this.#open(byId("globals-name").value.trim()));
    });
    const buttons = {
      "globals-search": () => this.#search(), "node-set": () => this.#set(), "node-add": () => this.#add(), "node-again": () => this.#again(),
      "node-kill": () => this.#kill(),
    };
    for (const [id, act] of Object.entries(buttons)) {
      byId(id).addEventListener("click", () => this.#guarded(act));
    }
  }

  /** Forgets everything of a user. */
  clear() {
    this.#names = new Set(["ROUTINE"]);
    this.#shown.clear();
    this.#isSearched = false;
    this.#tree.clear();
    this.#choose(null);
    byId("globals-name").value = "";
    byId("globals-note").textContent = "";
    byId("globals-known").replaceChildren();
  }

  /** Keeps the names of globals that a text has. */
  learn(text) {
    namesIn(text).forEach((name) => this.#names.add(name));
  }

  /** The part is opened: the first time its names are looked for, then those that lines of the session have named since. */
  opened() {
    this.#guarded(() => (this.#isSearched ? this.#show() : this.#search()));
  }

  async #guarded(act) {
    try {
      await act();
    } catch (error) {
      tell(error.message, "fault");
    }
  }

  /** Looks for names in the account's routines, and shows the globals that are there. */
  async #search() {
    this.#isSearched = true;
    const { count, isWhole } = await this.#terminal().alone((own) => this.#readRoutines(own));
    await this.#show();
    const lines = `${counted(count, "line")} of routines${isWhole ? "" : " (there are more)"}`;
    byId("globals-note").textContent = `Known from ${lines}, from this session and from what you open.`;
  }

  async #readRoutines(own) {
    let count = 0;
    for await (const routine of allChildren(own, ROUTINE)) {
      for await (const line of routine.hasMore ? allChildren(own, ROUTINE, [routine.subscript]) : []) {
        this.learn(line.text ?? "");
        count += 1;
        if (count >= MOST_LINES) {
          return { count, isWhole: false };
        }
      }
    }
    return { count, isWhole: true };
  }

  /** Shows those of the known names that have something. */
  async #show() {
    const names = [...this.#names].filter((name) => isName(name) && !this.#shown.has(`^${name}`)).sort();
    const there = await this.#terminal().alone(async (own) => {
      const found = [];
      for await (const reply of own.pipeline(names.map((name) => `W $D(^${name})`))) {
        found.push(Number(reply.rest));
      }
      return found;
    });
    names.forEach((name, number) => {
      if (there[number]) {
        this.#addRoot(`^${name}`, [], there[number] >= 10);
      }
    });
    byId("globals-known").replaceChildren(...[...this.#names].sort().map((name) => make("option", { value: `^${name}` })));
  }

  #addRoot(name, subscripts, hasMore) {
    const label = reference(name, subscripts);
    this.#shown.add(label);
    return this.#tree.addRoot({ name, subscripts, label, text: null, hasMore });
  }

  /** Opens the global or the node that was typed. */
  async #open(text) {
    const typed = /^[A-Za-z%]/.test(text) ? `^${text}` : text;
    if (!isReference(typed)) {
      throw new Error("Type a global or a node of one: ^NAME, ^NAME(1,\"a\") or ^|\"LAB\"|RESULT.");
    }
    this.learn(typed);
    const { place, node } = await this.#terminal().alone(async (own) => {
      const found = await placeOf(own, typed);
      return { place: found, node: await nodeAt(own, found.name, found.subscripts) };
    });
    const label = reference(place.name, place.subscripts);
    if (node.text === null && !node.hasMore) {
      tell(`${label} has no text, and there is none below it.`);
    }
    const item = this.#tree.rootOf(label) ?? this.#addRoot(place.name, place.subscripts, node.hasMore);
    byId("globals-name").value = "";
    await this.#tree.open(item);
  }

  /** Shows the node that is chosen, or none. */
  async #choose(item) {
    this.#chosen = item;
    byId("node").hidden = item === null;
    byId("node-name").textContent = item ? reference(item.name, item.subscripts) : "";
    this.#showText(item?.text ?? null);
    if (item && item.subscripts.length === 0 && item.text === null && !item.isRead) {
      item.isRead = true;
      await this.#guarded(() => this.#again());
    }
  }

  #showText(text) {
    const isExpression = text !== null && UNSHOWN.test(text);
    const field = byId("node-text");
    field.value = text === null ? "" : isExpression ? quoted(text) : text;
    setAttribute(field, "placeholder", text === null ? "no text at this node" : null);
    byId("node-label").textContent = isExpression ? "Text, as an expression: it has control characters" : "Text";
    field.rows = Math.min(8, Math.max(2, field.value.split("\n").length, Math.ceil(field.value.length / 60)));
  }

  /** Reads the chosen node again, and what is shown below it. */
  async #again() {
    const item = this.#chosen;
    const node = await this.#terminal().alone((own) => nodeAt(own, item.name, item.subscripts));
    this.#taken(item, node);
    await this.#tree.again(item);
  }

  #taken(item, node) {
    Object.assign(item, node);
    this.#tree.refresh(item);
    if (item === this.#chosen) {
      this.#showText(item.text);
    }
  }

  /** The text of the field, or an error that says what is wrong with it. */
  #typed() {
    const typed = byId("node-text").value;
    const text = this.#chosen.text !== null && UNSHOWN.test(this.#chosen.text) ? unquoted(typed) : typed;
    if (text === null) {
      throw new Error('Write the text as "..", with control characters by $C(..), joined by _.');
    }
    const fault = text.length > LONGEST_TEXT ? `the text has ${text.length} characters: at most ${LONGEST_TEXT} are possible` : faultOfCharacters(text);
    if (fault) {
      throw new Error(`Not set: ${fault}.`);
    }
    return text;
  }

  /** Sets the chosen node to the text of the field; what somebody else has changed meanwhile is asked for. */
  async #set() {
    const [item, text] = [this.#chosen, this.#typed()];
    const now = await this.#terminal().alone((own) => nodeAt(own, item.name, item.subscripts));
    const about = `The node was changed since it was read: ${shownText(now.text)}`;
    if (now.text !== item.text && !await confirmed({ question: "Set it all the same?", about, yes: "Set" })) {
      this.#taken(item, now);
      return;
    }
    await this.#put(item.name, item.subscripts, text);
    this.#taken(item, { text, hasMore: now.hasMore });
    tell(`${reference(item.name, item.subscripts)} is set.`);
  }

  /** Sets a node by one SET, so that it never has a part of a text. */
  #put(name, subscripts, text) {
    return this.#terminal().alone((own) => withReference(own, name, subscripts, async (place) => {
      const lines = setLines(place, text);
      if (lines.length === 1) {
        await asked(own, lines[0]);
        return;
      }
      await withLocal(own, (local) => askedAll(own, [...setLines(local, text), `S ${place}=${local}`]));
    }));
  }

  /** Asks for a subscript and a text, and sets a node below the chosen one. */
  async #add() {
    const item = this.#chosen;
    if (item.subscripts.length >= MOST_SUBSCRIPTS) {
      throw new Error(`A node has at most ${MOST_SUBSCRIPTS} subscripts.`);
    }
    const subscript = make("input", { id: "new-subscript", class: "code", autocomplete: "off", autocapitalize: "none", spellcheck: "false" });
    const text = make("textarea", { id: "new-text", class: "code", rows: 2, autocapitalize: "none", spellcheck: "false" });
    const body = [make("label", { for: "new-subscript" }, "Subscript, as it is: a number, or letters without quotes"), subscript,
      make("label", { for: "new-text" }, "Text"), text];
    if (!await confirmed({ question: `A node below ${reference(item.name, item.subscripts)}`, yes: "Set", body })) {
      return;
    }
    const fault = faultOfSubscript(subscript.value) || faultOfCharacters(text.value);
    if (fault) {
      throw new Error(`Not set: ${fault}.`);
    }
    const below = [...item.subscripts, subscript.value];
    const now = await this.#terminal().alone((own) => nodeAt(own, item.name, below));
    if (now.text !== null && !await confirmed({ question: "Set it all the same?", about: `The node is there already: ${shownText(now.text)}`, yes: "Set" })) {
      return;
    }
    await this.#put(item.name, below, text.value);
    item.hasMore = true;
    this.#tree.refresh(item);
    await this.#tree.again(item, true);
    tell(`${reference(item.name, below)} is set.`);
  }

  /** Kills the chosen node with all below it, after a question. */
  async #kill() {
    const item = this.#chosen;
    const label = reference(item.name, item.subscripts);
    const about = item.hasMore ? "It goes with all nodes below it. That cannot be taken back." : "That cannot be taken back.";
    if (!await confirmed({ question: `Kill ${label}?`, about, yes: "Kill", isDanger: true })) {
      return;
    }
    await this.#terminal().alone((own) => withReference(own, item.name, item.subscripts, (place) => asked(own, `K ${place}`)));
    this.#shown.delete(label);
    this.#tree.remove(item);
    tell(`${label} is killed.`);
  }
}

function shownText(text) {
  return text === null ? "it has no text now." : `it has ${written(text).slice(0, 200)} now.`;
}
