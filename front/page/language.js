// SPDX-License-Identifier: Apache-2.0
/** Codes in words; and where a line leaves the language, why, and what to write instead.
 *
 * The server alone decides whether a line is in the language, which is that of the account: 0, the profile, or a later one. The grammars and the
 * causes are those of clients/mserve_client, which say how they are read (grammar.py, causes.py): here are the same few kinds of steps. */
import { CAUSES, CODES, DEPTH, LATER_RULES, OVER, PATTERNS, RULES } from "./codes.js";

const STRING = new RegExp(PATTERNS.string, "g");
const OVER_PLACE = new RegExp(PATTERNS.over);
const END = "(?![\\s\\S])";
const HEAD = new RegExp(PATTERNS.command, "y");

/** A code with what it means: `M6: undefined local variable`. */
export function inWords(code) {
  return `${code}: ${CODES[code] ? CODES[code].words : "unknown code"}`;
}

/** What to do about a code; empty if the code is unknown. */
export function advice(code) {
  return CODES[code] ? CODES[code].advice : "";
}

/** A text with what is in its strings blanked out, and without its comment; places stay the same. */
export function blanked(text) {
  const plain = text.replace(STRING, (found) => (found.length > 1 ? `"${".".repeat(found.length - 2)}"` : found));
  const comment = plain.indexOf(";");
  return comment < 0 ? plain : plain.slice(0, comment);
}

/** Reads texts by the table of rules. Each step is a function from a place and a depth to the place after it, or -1. */
class Reader {
  #line = "";
  #place = 0;
  #wanted = new Set();
  #begun = new Set();
  #made = new Map();

  constructor(rules) {
    for (const [name, step] of Object.entries(rules)) {
      this.#made.set(name, this.#step(step));
    }
  }

  /** What a rule makes of a text from a place on: `{end, place, wanted, command}`; the end is -1 if the text does not go on with it. */
  read(line, name = "line", at = 0) {
    this.#line = line;
    this.#place = at;
    this.#wanted = new Set();
    this.#begun = new Set([at]);
    const end = this.#made.get(name)(at, DEPTH);
    const command = Math.max(...[...this.#begun].filter((place) => place <= this.#place));
    return { end, place: this.#place, wanted: [...this.#wanted], command };
  }

  #step([kind, ...parts]) {
    const kinds = { text: this.#text, all: this.#all, any: this.#any, many: this.#many, rule: this.#rule, inner: this.#inner, mark: this.#mark };
    return kinds[kind].apply(this, parts);
  }

  #text(pattern, wanted) {
    const match = new RegExp(pattern, "y");
    return (at) => {
      match.lastIndex = at;
      const found = match.exec(this.#line);
      return found ? at + found[0].length : this.#missed(at, wanted);
    };
  }

  /** Notes what was wanted, if no place further on was reached; gives -1. */
  #missed(at, wanted) {
    if (at > this.#place) {
      this.#place = at;
      this.#wanted = new Set();
    }
    if (at === this.#place && wanted) {
      this.#wanted.add(wanted);
    }
    return -1;
  }

  #all(...steps) {
    const made = steps.map((step) => this.#step(step));
    return (start, depth) => {
      let at = start;
      for (const step of made) {
        at = step(at, depth);
        if (at < 0) {
          return -1;
        }
      }
      return at;
    };
  }

  #any(...steps) {
    const made = steps.map((step) => this.#step(step));
    return (at, depth) => {
      for (const step of made) {
        const end = step(at, depth);
        if (end >= 0) {
          return end;
        }
      }
      return -1;
    };
  }

  #many(step) {
    const made = this.#step(step);
    return (start, depth) => {
      let at = start;
      for (let end = made(at, depth); end >= 0; end = made(at, depth)) {
        at = end;
      }
      return at;
    };
  }

  #rule(name) {
    return (at, depth) => this.#made.get(name)(at, depth);
  }

  #inner(name) {
    return (at, depth) => (depth === 0 ? this.#missed(at, "depth") : this.#made.get(name)(at, depth - 1));
  }

  #mark(name, step) {
    const made = this.#step(step);
    return (at, depth) => {
      const end = made(at, depth);
      if (end >= 0 && name === "command") {
        this.#begun.add(at);
      }
      return end;
    };
  }
}

const READERS = new Map([[0, new Reader(RULES)]]);
for (const [number, rules] of Object.entries(LATER_RULES)) {
  READERS.set(Number(number), new Reader({ ...RULES, ...rules }));
}

/** Why the server has refused a line, as `fault` gives it. `asked` tells the account's language; it is called only if the verdicts of several
 * languages leave open which one that is. */
export async function faultOf(text, asked) {
  const told = new Map([...READERS.keys()].map((language) => [language, fault(text, language)]));
  const refusing = [...told.values()].filter((found) => found !== null);
  if (new Set(refusing.map((found) => JSON.stringify(found))).size < 2) {
    return refusing[0] ?? null;
  }
  return told.get(await asked());
}

/** Why a line, without label and dots, is not in a language, `{code, place, command, name, advice}`; null if it is. A line's length is
 * not looked at. */
export function fault(text, language = 0) {
  const over = OVER_PLACE.exec(text);
  if (over) {
    return { code: "ZCHAR", place: over.index, command: over.index, ...OVER };
  }
  const outcome = READERS.get(language).read(text);
  if (outcome.end >= 0) {
    return null;
  }
  const blank = blanked(text);
  const cause = CAUSES.find((one) => fits(one, blank, outcome, language));
  const place = cause.reads === "argument" ? argumentPlace(blank, outcome) - 1 : Math.max(outcome.place - (cause.back ?? 0), 0);
  const command = cause.wanted === "command" && !cause.back ? place : outcome.command;
  return { code: "ZSYNTAX", place, command, name: cause.name, advice: cause.advice };
}

/** Whether a cause is that of a fault. What a language has is none in it. */
function fits(cause, blank, outcome, language) {
  if (language >= (cause.since ?? Infinity)) {
    return false;
  }
  if (cause.wanted && !outcome.wanted.some((wanted) => wanted.startsWith(cause.wanted))) {
    return false;
  }
  if (!stands(cause.here, blank, outcome.place) || !stands(cause.command, blank, outcome.command)) {
    return false;
  }
  if (cause.before && !new RegExp(`(?:${cause.before})${END}`, "i").test(blank.slice(0, outcome.place))) {
    return false;
  }
  return !cause.reads || READERS.get(language).read(blank, "command", cause.reads === "argument" ? argumentPlace(blank, outcome) : outcome.place).end >= 0;
}

/** Whether a pattern, if there is one, is found at a place. */
function stands(pattern, text, place) {
  if (!pattern) {
    return true;
  }
  const match = new RegExp(pattern, "iy");
  match.lastIndex = place;
  return place <= text.length && match.test(text);
}

/** Where the first argument of the command stands that a fault is in; the command's own place if it has none. */
function argumentPlace(blank, outcome) {
  HEAD.lastIndex = outcome.command;
  const head = HEAD.exec(blank);
  return head ? outcome.command + head[0].length : outcome.command;
}

/** The lines that show a fault to a person: the text, and below it the place with the cause, and what to write instead. */
export function pointed(text, found) {
  const before = " ".repeat(found.place);
  const lines = [text.replaceAll("\t", " "), `${before}^ ${found.code}: ${found.name}`];
  return found.advice ? [...lines, `${before}  ${found.advice}`] : lines;
}
