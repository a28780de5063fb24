// SPDX-License-Identifier: Apache-2.0
/** Routines in the account's global ^ROUTINE: read, replaced whole, and deleted, as clients/mserve_client/routines.py does.
 *
 * Each call wants a terminal that its caller has alone (`Terminal.alone`). */
import { LONGEST_TEXT, PATTERNS, ROUTINE } from "./codes.js";
import { inWords } from "./language.js";
import { isNumber, reference, setLines } from "./mtext.js";
import { Trouble } from "./service.js";
import { asked, nodes } from "./walk.js";

const HEAD = new RegExp(`^${PATTERNS.line}$`);
/** A string or a comment, whose tabs are its own; or a tab, which M reads as a space. */
const TAB = new RegExp(PATTERNS.tab, "g");

/** A routine that was not replaced; the text says at which line, and whether the old one is back. */
export class LoadFailed extends Trouble {}

/** A text that is no routine: which line and column, both from 1, and why. */
export class BadText extends Trouble {
  constructor(line, column, text) {
    super(`${line}:${column}: ${text}`);
    this.line = line;
    this.column = column;
  }
}

/** A line of a routine cut into label, what may be its formal list, level (spaces and dots) and rest. Tabs become spaces, but for those of strings
 * and comments. */
export function sourceLine(text) {
  const [, label = "", formals = "", level = "", rest] = HEAD.exec(text);
  return { label, formals, level: level.replaceAll("\t", " "), rest: rest.replace(TAB, (_, kept) => kept ?? " ") };
}

/** The lines that a text in the editor has, cut into their parts. BadText if it has a character over 127 or a line that is too long. */
export function sourceLines(text) {
  const lines = text.split("\n").map((line) => line.replace(/\r$/, ""));
  lines.forEach((line, number) => {
    const found = /[^\x00-\x7f]/u.exec(line);
    if (found) {
      throw new BadText(number + 1, found.index + 1, `the character ${found[0]} is over 127: values and lines are ASCII, comments too`);
    }
    if (line.length > LONGEST_TEXT) {
      throw new BadText(number + 1, 1, `${line.length} characters: a line has at most ${LONGEST_TEXT}`);
    }
  });
  if (!lines.at(-1)) {
    lines.pop();
  }
  return lines.map(sourceLine);
}

/** A cut line as the routine has it. */
export function textOf(line) {
  return line.label + line.formals + line.level + line.rest;
}

/** Whether a node of ^ROUTINE is a line of a routine. */
export function isLine([subscripts]) {
  return subscripts.length === 2 && isNumber(subscripts[1]);
}

/** All nodes of ^ROUTINE("name"), in their order. */
export function nodesOf(terminal, name) {
  return nodes(terminal, ROUTINE, [name]);
}

/** The lines of a routine; none if the account has no such routine. */
export async function textsOf(terminal, name) {
  return (await nodesOf(terminal, name)).filter(isLine).map(([, text]) => text);
}

/** Replaces a routine by these lines, whole, or puts the old one back and raises LoadFailed. The count of nodes that were there and were no lines. */
export async function load(terminal, name, texts, old) {
  const before = old ?? await nodesOf(terminal, name);
  try {
    const stop = await replaced(terminal, name, texts.map((text, number) => [[name, String(number + 1)], text]));
    if (stop) {
      const at = stop.subscripts.length > 1 ? `its line ${stop.subscripts[1]}` : "KILL of the old lines";
      throw new LoadFailed(`${name}: ${at} was answered ${inWords(stop.code)}; ${await putBack(terminal, name, before)}`);
    }
  } catch (error) {
    const isOfLoad = error instanceof LoadFailed || !(error instanceof Trouble);
    throw isOfLoad ? error : new LoadFailed(`${name}: ${error.message} The routine may be there in part: save it again.`);
  }
  return before.filter((node) => !isLine(node)).length;
}

/** Kills ^ROUTINE("name") and sets these nodes: null, or the first node whose line was answered by a code. */
async function replaced(terminal, name, all) {
  const sent = [];
  let stop = null;
  function* lines() {
    sent.push([name]);
    yield `K ${reference(ROUTINE, [name])}`;
    for (const [subscripts, text] of all) {
      for (const line of setLines(reference(ROUTINE, subscripts), text)) {
        if (stop) {
          return;
        }
        sent.push(subscripts);
        yield line;
      }
    }
  }
  let number = 0;
  for await (const reply of terminal.pipeline(lines())) {
    stop ??= reply.code === null ? null : { subscripts: sent[number], code: reply.code };
    number += 1;
  }
  return stop;
}

/** Puts the nodes back that a routine had; says how that ended. */
async function putBack(terminal, name, old) {
  try {
    const stop = await replaced(terminal, name, old);
    if (stop) {
      return `the old routine could not be put back: ${reference(ROUTINE, stop.subscripts)} was answered ${inWords(stop.code)}: save it again`;
    }
  } catch (error) {
    return `the old routine could not be put back: ${error.message}`;
  }
  return old.length ? "the old routine is back" : "there was none before, and there is none now";
}

/** Deletes a routine with all that is below ^ROUTINE("name"). */
export async function remove(terminal, name) {
  await asked(terminal, `K ${reference(ROUTINE, [name])}`);
}
