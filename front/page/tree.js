// SPDX-License-Identifier: Apache-2.0
/** A tree of nodes, as screen readers and keyboards know trees: arrows move and open, Enter chooses.
 *
 * An item is `{name, subscripts, label, text, hasMore}`. */
import { make, setAttribute } from "./dom.js";
import { written } from "./mtext.js";

/** The view of a tree. `acts` has `load(item, after)`, which gives children, and `choose(item)`, `edit()` and `kill()`. */
export class Tree {
  #root;
  #acts;
  #elements = new Map();
  #items = new WeakMap();
  #focused = null;

  constructor(root, acts) {
    this.#root = root;
    this.#acts = acts;
    root.addEventListener("keydown", (event) => this.#key(event));
    root.addEventListener("click", (event) => this.#click(event));
  }

  /** Takes all items away. */
  clear() {
    this.#root.replaceChildren();
    this.#elements.clear();
    this.#focused = null;
  }

  /** Adds an item at the top, in the order of labels. */
  addRoot(item) {
    const element = this.#made(item, 1);
    const next = [...this.#root.children].find((other) => this.#items.get(other).label > item.label);
    this.#root.insertBefore(element, next ?? null);
    this.#root.querySelector("[tabindex='0']") ?? this.#hold(element);
    return item;
  }

  /** The item at the top with a label, or undefined. */
  rootOf(label) {
    return [...this.#root.children].map((element) => this.#items.get(element)).find((item) => item.label === label);
  }

  /** Opens an item, chooses it and moves the focus to it. */
  async open(item) {
    const element = this.#elements.get(item);
    this.#focus(element);
    this.#acts.choose(item);
    if (item.hasMore && element.getAttribute("aria-expanded") !== "true") {
      await this.#expand(element);
    }
  }

  /** Shows what an item now has. */
  refresh(item) {
    const element = this.#elements.get(item);
    if (!element) {
      return;
    }
    const isOpen = element.getAttribute("aria-expanded") === "true";
    setAttribute(element, "aria-expanded", item.hasMore ? String(isOpen) : null);
    element.querySelector(".row").replaceChildren(...rowParts(item));
  }

  /** Reads the children of an item again if they are shown, or if they are to be. */
  async again(item, isWanted = false) {
    const element = this.#elements.get(item);
    const isOpen = element?.getAttribute("aria-expanded") === "true";
    if (!element || !isOpen && !isWanted) {
      return;
    }
    this.#collapse(element);
    if (item.hasMore) {
      await this.#expand(element);
    }
  }

  /** Takes an item away; the focus moves to the one before it. */
  remove(item) {
    const element = this.#elements.get(item);
    const all = this.#all();
    const next = all[all.indexOf(element) - 1] ?? element.nextElementSibling;
    const parent = element.parentElement.closest("[role=treeitem]");
    element.remove();
    this.#elements.delete(item);
    if (parent && !parent.querySelector("[role=treeitem]")) {
      const above = this.#items.get(parent);
      above.hasMore = false;
      this.#collapse(parent);
      this.refresh(above);
    } else if (parent) {
      this.#count(parent.querySelector("[role=group]"));
    }
    if (next && this.#items.has(next)) {
      this.#focus(next);
    }
    this.#acts.choose(next ? this.#items.get(next) ?? null : null);
  }

  #made(item, level) {
    const roles = { role: "treeitem", "aria-level": level, tabindex: "-1", "aria-expanded": item.hasMore ? "false" : null, "aria-selected": "false" };
    const element = make("li", roles, make("div", { class: "row" }, ...rowParts(item)));
    element.style.setProperty("--level", level);
    this.#elements.set(item, element);
    this.#items.set(element, item);
    return element;
  }

  async #expand(element) {
    const item = this.#items.get(element);
    const group = make("ul", { role: "group" });
    setAttribute(element, "aria-expanded", "true");
    setAttribute(element, "aria-busy", "true");
    element.append(group);
    try {
      await this.#more(element, group, item, "");
      this.#count(group);
    } catch (error) {
      this.#collapse(element);
      throw error;
    } finally {
      setAttribute(element, "aria-busy", null);
    }
  }

  /** Loads further children of an item into its group. */
  async #more(element, group, item, after) {
    const { found, isEnd } = await this.#acts.load(item, after);
    const level = Number(element.getAttribute("aria-level")) + 1;
    for (const { subscript, text, hasMore } of found) {
      const child = { name: item.name, subscripts: [...item.subscripts, subscript], label: written(subscript), text, hasMore };
      group.append(this.#made(child, level));
    }
    if (!isEnd) {
      const last = { isRest: true, item, after: found.at(-1).subscript, label: "more…", text: null, hasMore: false };
      group.append(this.#made(last, level));
    }
  }

  #collapse(element) {
    setAttribute(element, "aria-expanded", this.#items.get(element).hasMore ? "false" : null);
    element.querySelectorAll("[role=treeitem]").forEach((below) => this.#elements.delete(this.#items.get(below)));
    if (element.contains(this.#focused) && this.#focused !== element) {
      this.#hold(element);
    }
    element.querySelector("[role=group]")?.remove();
  }

  /** Loads what an item `more…` stands for, in its place. */
  async #rest(element) {
    const { item, after } = this.#items.get(element);
    const group = element.parentElement;
    const before = element.previousElementSibling;
    await this.#more(group.closest("[role=treeitem]"), group, item, after);
    this.#elements.delete(this.#items.get(element));
    element.remove();
    this.#count(group);
    this.#focus(before.nextElementSibling);
  }

  /** Says of each item of a group which one it is, and of how many; -1 while there are more to load. */
  #count(group) {
    const elements = [...group.children];
    const size = this.#items.get(elements.at(-1))?.isRest ? -1 : elements.length;
    for (const [at, element] of elements.entries()) {
      setAttribute(element, "aria-posinset", at + 1);
      setAttribute(element, "aria-setsize", size);
    }
  }

  #all() {
    return [...this.#root.querySelectorAll("[role=treeitem]")];
  }

  /** Makes an item the one that Tab comes to. */
  #hold(element) {
    if (this.#focused) {
      setAttribute(this.#focused, "tabindex", "-1");
    }
    this.#focused = element;
    setAttribute(element, "tabindex", "0");
  }

  #focus(element) {
    this.#hold(element);
    element.focus();
    element.querySelector(".row").scrollIntoView({ block: "nearest" });
  }

  #select(element) {
    this.#root.querySelectorAll("[aria-selected=true]").forEach((other) => setAttribute(other, "aria-selected", "false"));
    setAttribute(element, "aria-selected", "true");
    this.#acts.choose(this.#items.get(element));
  }

  async #toggle(element) {
    const expanded = element.getAttribute("aria-expanded");
    if (expanded === "true") {
      this.#collapse(element);
    } else if (expanded === "false") {
      await this.#expand(element);
    }
  }

  async #guarded(act) {
    try {
      await act();
    } catch (error) {
      this.#acts.failed(error);
    }
  }

  #click(event) {
    const element = event.target.closest("[role=treeitem]");
    if (!element) {
      return;
    }
    this.#hold(element);
    element.focus();
    if (this.#items.get(element).isRest) {
      this.#guarded(() => this.#rest(element));
      return;
    }
    const wasChosen = element.getAttribute("aria-selected") === "true";
    this.#select(element);
    if (event.target.closest(".twist") || wasChosen) {
      this.#guarded(() => this.#toggle(element));
    } else if (element.getAttribute("aria-expanded") === "false") {
      this.#guarded(() => this.#expand(element));
    }
  }

  #key(event) {
    const element = event.target.closest("[role=treeitem]");
    if (!element || event.ctrlKey || event.altKey || event.metaKey) {
      return;
    }
    const act = this.#keyAct(event.key, element);
    if (act) {
      event.preventDefault();
      event.stopPropagation();
      this.#guarded(act);
    }
  }

  #keyAct(key, element) {
    const all = this.#all();
    const at = all.indexOf(element);
    const expanded = element.getAttribute("aria-expanded");
    const parent = element.parentElement.closest("[role=treeitem]");
    const move = (to) => to && (() => this.#focus(to));
    const acts = {
      ArrowDown: move(all[at + 1]), ArrowUp: move(all[at - 1]), Home: move(all[0]), End: move(all.at(-1)),
      ArrowRight: expanded === "false" ? () => this.#expand(element) : expanded === "true" ? move(all[at + 1]) : null,
      ArrowLeft: expanded === "true" ? () => this.#collapse(element) : move(parent),
      Enter: () => this.#enter(element), " ": () => this.#enter(element),
      F2: () => this.#chosenThen(element, () => this.#acts.edit()), Delete: () => this.#chosenThen(element, () => this.#acts.kill()),
    };
    return acts[key];
  }

  async #enter(element) {
    if (this.#items.get(element).isRest) {
      await this.#rest(element);
      return;
    }
    this.#select(element);
    await this.#toggle(element);
  }

  async #chosenThen(element, act) {
    if (!this.#items.get(element).isRest) {
      this.#select(element);
      await act();
    }
  }
}

/** What a row shows: a mark if there are nodes below, the subscript, and the text. */
function rowParts(item) {
  const text = item.text === null ? [] : [make("span", { class: "equals" }, "="), make("span", { class: "text" }, written(item.text).slice(0, 400))];
  return [make("span", { class: "twist", "aria-hidden": "true" }), make("span", { class: item.isRest ? "rest" : "label" }, item.label), ...text];
}
