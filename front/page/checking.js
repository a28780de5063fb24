// SPDX-License-Identifier: Apache-2.0
/** Checks lines of routines: whether each is in the language, without running any of them, as clients/mserve_client/checking.py does.
 *
 * A line's label and dots are taken off, and the rest is sent after `Q  `: the server reads it whole, and stops at the Q. A
 * rest that is too long for that is put together in a local variable that the session does not have, and run by XECUTE,
 * after `Q  ` too; then that local is killed. Each call wants a terminal that its caller has alone (`Terminal.alone`). */
import { FAULTS, FORMALS, GUARD, LABEL_PARAMETERS, LONGEST_LINE, LONGEST_NAME, LONGEST_TEXT, NEW_LINES, NO_LABEL, OVER, PARAMETERS_SINCE,
         PATTERNS } from "./codes.js";
import { fault, inWords } from "./language.js";
import { setLines } from "./mtext.js";
import { textOf } from "./routines.js";
import { AnsweredByCode } from "./service.js";
import { askedAll, withLocal } from "./walk.js";

const LONGEST_REST = LONGEST_TEXT - GUARD.length;
const OVER_PLACE = new RegExp(PATTERNS.over);
const NAME = new RegExp(`^(?:${PATTERNS.name})$`);

/** What is wrong, with its parts in place of the braces. */
function filled(text, ...parts) {
  return text.replaceAll("{}", () => parts.shift());
}

/** What is not in the language, line by line: `{line, column, message, advice}`, line and column from 1. */
export async function check(terminal, lines) {
  const language = await languageOf(terminal);
  const accepted = await acceptedRests(terminal, lines.map((line) => (OVER_PLACE.test(line.rest) ? "" : line.rest)));
  const found = [];
  for (const [number, line] of lines.entries()) {
    const finding = faultOfForm(line, language) ?? (accepted[number] ? null : refused(line, language));
    if (finding) {
      found.push({ line: number + 1, ...finding });
    }
  }
  return found;
}

/** The language of the terminal's account: the newest one that the server takes a new line of. */
export async function languageOf(terminal) {
  let language = 0;
  for (const [number, line] of Object.entries(NEW_LINES)) {
    if (isAccepted(line, (await terminal.send(GUARD + line)).code)) {
      language = Number(number);
    }
  }
  return language;
}

/** Whether each of these lines of M is in the language. */
async function acceptedRests(terminal, rests) {
  const isShort = (rest) => GUARD.length + rest.length <= LONGEST_LINE && !hasBarred(rest);
  const answers = [];
  for await (const reply of terminal.pipeline(rests.filter(isShort).map((rest) => GUARD + rest))) {
    answers.push(reply.code);
  }
  const accepted = [];
  for (const rest of rests) {
    accepted.push(isAccepted(GUARD + rest, isShort(rest) ? answers.shift() : await longAnswer(terminal, rest)));
  }
  return accepted;
}

/** Whether a text has a character that the front end refuses in a line, and that a text of the language can have. */
function hasBarred(text) {
  return /[\x00\r\n]/.test(text);
}

function isAccepted(line, code) {
  if (code !== null && code !== "ZSYNTAX") {
    throw new AnsweredByCode(line, code, inWords(code));
  }
  return code === null;
}

/** The code that a line is answered which is too long for the wire. */
async function longAnswer(terminal, rest) {
  if (rest.length > LONGEST_REST) {
    return "ZSYNTAX";
  }
  return withLocal(terminal, async (local) => {
    await askedAll(terminal, setLines(local, GUARD + rest));
    return (await terminal.send(`X ${local}`)).code;
  });
}

/** Whether what is in brackets after a label is a formal list: names, each once, or none. */
function isFormalList(text) {
  const names = text.slice(1, -1).split(",");
  return text === "()" || (text !== "" && names.every((name) => NAME.test(name)) && new Set(names).size === names.length);
}

/** What is wrong with a line before its first command in a language, or null. */
function faultOfForm(line, language) {
  const { label, formals, level, rest } = line;
  const over = OVER_PLACE.exec(textOf(line));
  if (over) {
    const character = String.fromCodePoint(textOf(line).codePointAt(over.index));
    return { column: over.index + 1, message: filled(FAULTS.over, `'${character}'`), advice: OVER.advice };
  }
  if (label.length > LONGEST_NAME) {
    return { column: 1, message: filled(FAULTS.label, label, label.length), advice: NO_LABEL };
  }
  const hasBrackets = label && (formals || (!level && rest.startsWith("(")));
  if (hasBrackets && language < PARAMETERS_SINCE) {
    return { column: label.length + 1, message: filled(FAULTS.parameters, label), advice: LABEL_PARAMETERS };
  }
  if (hasBrackets && !isFormalList(formals)) {
    return { column: label.length + 1, message: filled(FAULTS.formals, label), advice: FORMALS };
  }
  if (!level && rest && !rest.startsWith(";")) {
    return { column: before(line) + 1, message: filled(FAULTS.begin, `'${(label + formals + rest).slice(0, 20)}'`), advice: NO_LABEL };
  }
  if (rest.length > LONGEST_REST) {
    const count = textOf(line).length.toLocaleString("en");
    return { column: 1, message: filled(FAULTS.line, count), advice: filled(FAULTS.cut, LONGEST_REST.toLocaleString("en")) };
  }
  return null;
}

/** How many characters come before a line's first command. */
function before(line) {
  return line.label.length + line.formals.length + line.level.length;
}

/** Why a line is not in the account's language. */
function refused(line, language) {
  const found = fault(line.rest, language);
  const column = before(line) + 1;
  if (found === null) {
    return { column, message: `not in the language: ${line.rest.slice(0, 60)}`, advice: "The server refuses it." };
  }
  return { column: column + found.place, message: `not in the language: ${line.rest.slice(found.command).slice(0, 60)}: ${found.name}`, advice: found.advice };
}
