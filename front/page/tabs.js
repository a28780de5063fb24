// SPDX-License-Identifier: Apache-2.0
/** The parts of the page as tabs. Where there is room the terminal is beside the other two, and has no tab. */
import { byId, setAttribute } from "./dom.js";

const PARTS = ["terminal", "globals", "routines"];
const BESIDE = window.matchMedia("(min-width: 60rem)");

/** The tabs; one of them is chosen. */
export class Tabs {
  #chosen = "terminal";
  #openings = new Map();

  constructor() {
    for (const part of PARTS) {
      byId(`tab-${part}`).addEventListener("click", () => this.show(part));
    }
    byId("tabs").addEventListener("keydown", (event) => this.#key(event));
    BESIDE.addEventListener("change", () => this.show(this.#chosen));
  }

  /** Has `act` called each time a part is opened. */
  opened(part, act) {
    this.#openings.set(part, act);
  }

  /** Shows a part. */
  show(part) {
    const before = this.#visible();
    this.#chosen = BESIDE.matches && part === "terminal" && before !== "terminal" ? before : part;
    const visible = this.#visible();
    for (const name of PARTS) {
      const isChosen = name === visible;
      byId(name).hidden = !isChosen && !(name === "terminal" && BESIDE.matches);
      setAttribute(byId(`tab-${name}`), "aria-selected", String(isChosen));
      setAttribute(byId(`tab-${name}`), "tabindex", isChosen ? "0" : "-1");
    }
    byId("tab-terminal").hidden = BESIDE.matches;
    // Beside the others it is no part that a tab shows.
    setAttribute(byId("terminal"), "role", BESIDE.matches ? "region" : "tabpanel");
    setAttribute(byId("terminal"), "aria-labelledby", BESIDE.matches ? "terminal-title" : "tab-terminal");
    this.#openings.get(visible)?.();
  }

  #visible() {
    return BESIDE.matches && this.#chosen === "terminal" ? "globals" : this.#chosen;
  }

  #key(event) {
    const names = PARTS.filter((name) => !byId(`tab-${name}`).hidden);
    const at = names.indexOf(this.#visible());
    const to = { ArrowRight: at + 1, ArrowLeft: at - 1, Home: 0, End: names.length - 1 }[event.key];
    if (to !== undefined) {
      event.preventDefault();
      const name = names[(to + names.length) % names.length];
      this.show(name);
      byId(`tab-${name}`).focus();
    }
  }
}
