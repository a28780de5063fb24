// SPDX-License-Identifier: Apache-2.0
/** Walks over what a terminal's session can see, by $ORDER: the nodes below a node, and the account's routines.
 *
 * As clients/mserve_client/walk.py does: one line asks for many children of a node. The lines use the local variables %i and
 * %t, which NEW hides. Subscripts that are too long for a line are in a local that the session does not have, which is
 * killed afterwards. The session's naked indicator moves. Each call wants a terminal that its caller has alone
 * (`Terminal.alone`). */
import { BATCH, LOCAL, LONGEST_START, ROOM, ROUTINE } from "./codes.js";
import { inWords } from "./language.js";
import { argumentsOf, isName, quoted, reference, setLines } from "./mtext.js";
import { AnsweredByCode } from "./service.js";

const [INDEX, TURN] = ["%i", "%t"];

/** The reply of a line that must not be answered by a code. */
export async function asked(terminal, line) {
  const reply = await terminal.send(line);
  if (reply.code !== null) {
    throw new AnsweredByCode(line, reply.code, inWords(reply.code));
  }
  return reply;
}

/** Runs lines none of which may be answered by a code. */
export async function askedAll(terminal, lines) {
  for (const line of lines) {
    await asked(terminal, line);
  }
}

/** Calls `act` with the name of a local variable that the session does not have, and kills that afterwards. */
export async function withLocal(terminal, act) {
  let local = LOCAL;
  for (let number = 1; (await asked(terminal, `W $D(${local})`)).rest !== "0"; number += 1) {
    local = `${LOCAL}${number}`;
  }
  try {
    return await act(local);
  } finally {
    // Where the connection is lost, so is the variable.
    await terminal.send(`K ${local}`).catch(() => {});
  }
}

/** The lines that set subscripts of a local variable to those of a node. */
function subscriptLines(local, subscripts) {
  return subscripts.flatMap((part, number) => setLines(`${local}(${number + 1})`, part));
}

/** A node by subscripts that are in a local variable. */
function referenceBy(local, name, subscripts) {
  return `${name}(${subscripts.map((_, number) => `${local}(${number + 1})`).join(",")})`;
}

/** Calls `act` with a node as it is written in a line. */
export async function withReference(terminal, name, subscripts, act) {
  const text = reference(name, subscripts);
  if (text.length <= ROOM) {
    return act(text);
  }
  return withLocal(terminal, async (local) => {
    await askedAll(terminal, subscriptLines(local, subscripts));
    return act(referenceBy(local, name, subscripts));
  });
}

/** What is at a node: its text or null, and whether there are nodes below it. */
export function nodeAt(terminal, name, subscripts) {
  return withReference(terminal, name, subscripts, async (place) => {
    const reply = await asked(terminal, `W $D(${place}),! W:$D(${place})#10 ${place},!`);
    const status = Number(reply.lines[0]);
    return { text: status % 10 ? reply.lines[1] : null, hasMore: status >= 10 };
  });
}

/** Some children of a node that come after a subscript: `{found: [{subscript, text, hasMore}], isEnd}`. A line whose steps are used up gives the
 * first of them. */
export async function children(terminal, name, place = [], after = "", count = BATCH) {
  const ask = async (local) => {
    const lines = childrenLines(name, place, after, count, local);
    await askedAll(terminal, lines.slice(0, -1));
    return childrenOf(await terminal.send(lines.at(-1)), count, lines.at(-1));
  };
  const isLong = reference(name, place).length > ROOM || quoted(after).length > LONGEST_START;
  return isLong ? withLocal(terminal, ask) : ask("");
}

/** The lines that ask for children of a global's node; the last one writes them. What is too long for a line is in `local`, if that is given. */
function childrenLines(name, place, after, count, local) {
  const before = local ? [...subscriptLines(local, place), ...setLines(`${local}(0)`, after)] : [];
  const parent = local && place.length ? referenceBy(local, name, place) : reference(name, place);
  const child = place.length ? `${parent.slice(0, -1)},${INDEX})` : `${parent}(${INDEX})`;
  const start = local ? `${local}(0)` : quoted(after);
  return [...before, `N ${INDEX},${TURN} S ${INDEX}=${start} F ${TURN}=1:1:${count} S ${INDEX}=$O(${child}) Q:${INDEX}=""  ` +
    `W $D(^(${INDEX}))," ",${INDEX},! W:$D(^(${INDEX}))#10 ^(${INDEX}),!`];
}

/** The children that a reply writes, of which up to `count` were asked for. A line whose steps were used up has written some first ones. */
export function childrenOf(reply, count, line) {
  if (reply.code !== null && reply.code !== "ZSTEPS") {
    throw new AnsweredByCode(line, reply.code, inWords(reply.code));
  }
  const found = [];
  for (let at = 0; at < reply.lines.length; at += 1) {
    const space = reply.lines[at].indexOf(" ");
    const [status, subscript] = [reply.lines[at].slice(0, space), reply.lines[at].slice(space + 1)];
    const hasText = status === "1" || status === "11";
    at += hasText ? 1 : 0;
    if (at >= reply.lines.length || !hasText && status !== "10") {
      break;
    }
    found.push({ subscript, text: hasText ? reply.lines[at] : null, hasMore: status !== "1" });
  }
  if (reply.code !== null && !found.length) {
    throw new AnsweredByCode(line, reply.code, inWords(reply.code));
  }
  return { found, isEnd: reply.code === null && found.length < count };
}

/** All children of a node, in their order. */
export async function* allChildren(terminal, name, place = []) {
  let [after, isEnd] = ["", false];
  while (!isEnd) {
    const batch = await children(terminal, name, place, after);
    yield* batch.found;
    isEnd = batch.isEnd;
    after = batch.found.at(-1)?.subscript ?? after;
  }
}

/** The nodes at and below a place that have a text, in the order of the store: `[subscripts, text]` each. */
export async function nodes(terminal, name, place = []) {
  const at = await nodeAt(terminal, name, place);
  const found = at.text === null ? [] : [[place, at.text]];
  if (at.hasMore) {
    await gather(terminal, name, place, found);
  }
  return found;
}

async function gather(terminal, name, place, found) {
  for await (const child of allChildren(terminal, name, place)) {
    const below = [...place, child.subscript];
    if (child.text !== null) {
      found.push([below, child.text]);
    }
    if (child.hasMore) {
      await gather(terminal, name, below, found);
    }
  }
}

/** The names of the account's routines. */
export async function routineNames(terminal) {
  const found = [];
  for await (const child of allChildren(terminal, ROUTINE)) {
    if (child.hasMore && isName(child.subscript)) {
      found.push(child.subscript);
    }
  }
  return found;
}

/** The values of the subscripts of a reference that a user wrote: `{name, subscripts}`. */
export async function placeOf(terminal, text) {
  const bracket = text.indexOf("(");
  if (bracket < 0) {
    return { name: text, subscripts: [] };
  }
  await asked(terminal, `W $D(${text})`);
  const subscripts = [];
  for (const expression of argumentsOf(text.slice(bracket + 1, -1))) {
    subscripts.push((await asked(terminal, `W ""_(${expression})`)).rest);
  }
  return { name: text.slice(0, bracket), subscripts };
}
