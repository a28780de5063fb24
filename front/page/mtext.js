// SPDX-License-Identifier: Apache-2.0
/** Texts of M: how a text, a subscript and a node are written in a line, and how a long text is put together by lines.
 *
 * The rules are those of clients/mserve_client/mtext.py and keys.py, but that each control character is written by $C:
 * the front end refuses lines that have some of them. */
import { DIGITS, LONGEST_LINE, LONGEST_SUBSCRIPT, PATTERNS } from "./codes.js";

const [NAME, NUMBER, REFERENCE] = [PATTERNS.name, PATTERNS.number, PATTERNS.reference].map((pattern) => new RegExp(`^(?:${pattern})$`));
const GLOBAL = /\^(?:\|[^|]*\|)?(%?[A-Za-z][A-Za-z0-9]*|%)/g;
// The shortest room that has place for any one character, quoted.
const LEAST_ROOM = 12;

/** Whether a text is the name of a variable, a label or a routine. */
export function isName(text) {
  return NAME.test(text);
}

/** Whether a text is the canonical text of a number. */
export function isNumber(text) {
  const found = NUMBER.exec(text);
  if (!found || text === "" || text === "-" || text === "-0") {
    return false;
  }
  const [whole, fraction] = [found[2] ?? "", found[3] ?? ""];
  if (whole === "0" && fraction || whole.length > DIGITS || fraction.length > DIGITS) {
    return false;
  }
  const digits = fraction ? (whole + fraction).replace(/^0+/, "") : whole.replace(/0+$/, "");
  return digits.length <= DIGITS;
}

/** Whether a text looks like a variable with a name, alone or with subscripts: a naked reference and `@` do not. */
export function isReference(text) {
  return REFERENCE.test(text);
}

/** The names of globals that a text has. */
export function namesIn(text) {
  return Array.from(text.matchAll(GLOBAL), (found) => found[1]);
}

/** The text as an expression, its control characters by $C with their codes. */
export function quoted(text) {
  const parts = text.match(/[\x00-\x1f\x7f]+|[^\x00-\x1f\x7f]+/g) ?? [""];
  return parts.map((part) => (/^[\x00-\x1f\x7f]/.test(part) ? `$C(${codesOf(part)})` : `"${part.replaceAll('"', '""')}"`)).join("_");
}

function codesOf(part) {
  return Array.from(part, (character) => character.charCodeAt(0)).join(",");
}

/** The text of an expression as `quoted` writes it, or null if the expression is another. */
export function unquoted(expression) {
  let [text, at] = ["", 0];
  const part = /"((?:[^"]|"")*)"|\$C\((\d{1,3}(?:,\d{1,3})*)\)/iy;
  do {
    part.lastIndex = at;
    const found = part.exec(expression);
    if (!found) {
      return null;
    }
    text += found[2] === undefined ? found[1].replaceAll('""', '"') : String.fromCharCode(...found[2].split(",").map(Number));
    at = part.lastIndex + 1;
  } while (expression[at - 1] === "_");
  return at > expression.length ? text : null;
}

/** The text as people read it: a number bare, another text as an expression. */
export function written(text) {
  return isNumber(text) ? text : quoted(text);
}

/** A node as it is written in a line: the name, with `^` for a global, and its subscripts. */
export function reference(name, subscripts = []) {
  return subscripts.length ? `${name}(${subscripts.map(written).join(",")})` : name;
}

/** What is wrong with a text as a subscript; empty if nothing is. */
export function faultOfSubscript(text) {
  if (text === "") {
    return "a subscript is not empty";
  }
  return text.length > LONGEST_SUBSCRIPT ? `a subscript has at most ${LONGEST_SUBSCRIPT} characters` : faultOfCharacters(text);
}

/** What is wrong with the characters of a text; empty if nothing is. */
export function faultOfCharacters(text) {
  const found = /[^\x00-\x7f]/u.exec(text);
  return found ? `the character ${found[0]} is over 127: texts are ASCII` : "";
}

/** The arguments that a text has between commas, outside of strings and brackets. */
export function argumentsOf(text) {
  const parts = [];
  let [start, depth, isString] = [0, 0, false];
  for (let place = 0; place < text.length; place += 1) {
    const code = text[place];
    isString = isString !== (code === '"');
    if (!isString) {
      depth += Number(code === "(") - Number(code === ")");
      if (code === "," && depth === 0) {
        parts.push(text.slice(start, place));
        start = place + 1;
      }
    }
  }
  return [...parts, text.slice(start)];
}

/** The lines that set a target to a text: one, or several that put it together. An error if no line has room for a part. */
export function setLines(target, text, longest = LONGEST_LINE) {
  const [first, more] = [`S ${target}=`, `S ${target}=${target}_`];
  return cut(text, longest - first.length, longest - more.length).map((part, number) => (number ? more : first) + part);
}

/** The text as quoted parts: the first has `room` characters at most, and the others `further` each. */
export function cut(text, room, further) {
  const whole = quoted(text);
  if (whole.length <= room) {
    return [whole];
  }
  if (Math.min(room, further) < LEAST_ROOM) {
    throw new RangeError("no room for a text");
  }
  const parts = [];
  for (let space = room; text; space = further) {
    const taken = fitting(text, space);
    parts.push(quoted(text.slice(0, taken)));
    text = text.slice(taken);
  }
  return parts;
}

/** How many characters of the text fit, quoted, into the room. */
function fitting(text, room) {
  let [least, most] = [1, Math.min(text.length, room - 2)];
  while (least < most) {
    const middle = (least + most + 1) >> 1;
    if (quoted(text.slice(0, middle)).length <= room) {
      least = middle;
    } else {
      most = middle - 1;
    }
  }
  return least;
}
