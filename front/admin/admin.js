// SPDX-License-Identifier: Apache-2.0
/** The operator's page: what a front, a standby or a gate tells, each few seconds. What it does not tell is not shown. */
const PICTURES = [[1, "Lines a second"], [2, "Part of the time that the server is busy"], [3, "Lines that wait"], [4, "Longest wait, seconds"]];
const EVERY = 5000;
const byId = (id) => document.getElementById(id);
let before = null;

function cell(text) {
  const made = document.createElement("td");
  made.textContent = text;
  return made;
}

function rows(id, found) {
  byId(id).replaceChildren(...found.map((cells) => {
    const row = document.createElement("tr");
    row.append(...cells.map(cell));
    return row;
  }));
}

/** A line through the points of the last hour, and its highest value. */
function picture(points, place, title) {
  const values = points.map((point) => point[place]);
  const most = Math.max(...values, 1e-9);
  const svg = document.createElementNS("http://www.w3.org/2000/svg", "svg");
  svg.setAttribute("viewBox", "0 0 239 100");
  svg.setAttribute("preserveAspectRatio", "none");
  svg.setAttribute("role", "img");
  svg.setAttribute("aria-label", `${title}: at most ${most.toPrecision(3)}, now ${values.at(-1) ?? 0}`);
  const line = document.createElementNS("http://www.w3.org/2000/svg", "polyline");
  line.setAttribute("points", values.map((value, at) => `${240 - values.length + at},${98 - 96 * value / most}`).join(" "));
  svg.append(line);
  const figure = document.createElement("figure");
  const caption = document.createElement("figcaption");
  caption.textContent = `${title}: ${values.at(-1) ?? 0} now, ${most.toPrecision(3)} at most`;
  figure.append(caption, svg);
  return figure;
}

function alarm({ what, do: remedy }) {
  const made = document.createElement("li");
  const strong = document.createElement("strong");
  strong.textContent = what;
  made.append(strong, ` ${remedy}`);
  return made;
}

function show(found) {
  byId("state").textContent = `${found.state}; ${new Date(found.time * 1000).toLocaleTimeString()}`;
  const sections = { islands: found.islands, standbys: found.standbys, accounts: found.accounts, users: found.users, pictures: found.points };
  for (const [id, some] of Object.entries(sections)) {
    byId(id).closest("section").hidden = !some;
  }
  byId("alarms").replaceChildren(...found.alarms.map(alarm));
  if (!found.alarms.length) {
    byId("alarms").append(Object.assign(document.createElement("li"), { className: "none", textContent: "None." }));
  }
  const { points = [], accounts = [], users = [], islands = [], standbys = [] } = found;
  byId("pictures").replaceChildren(...PICTURES.map(([place, title]) => picture(points, place, title)));
  rows("islands", islands.map((one) => [one.island, one.machine, one.target ? `${one.state}, to ${one.target}` : one.state, one.accounts.join(" "), one.front,
    one.signed_on, one.lines, `${one.seconds.toFixed(1)} s`]));
  rows("standbys", standbys.map((one) => [
    one.standby, one.line, one.lines, `${one.seconds.toFixed(0)} s`, `${one.silent.toFixed(0)} s ago`, one.waits ? "yes" : ""]));
  const all = accounts.reduce((sum, one) => sum + one.seconds, 0) || 1;
  const earlier = new Map((before?.accounts ?? []).map((one) => [one.account, one.lines]));
  const span = before ? Math.max(found.time - before.time, 1) : 1;
  rows("accounts", accounts.map((one) => [one.account, one.signed_on, one.lines,
    before ? ((one.lines - (earlier.get(one.account) ?? 0)) / span).toFixed(1) : "",
    `${one.seconds.toFixed(1)} s`, `${Math.round(100 * one.seconds / all)} %`]));
  rows("users", users.map((one) => [one.user, one.account, one.terminal, one.way, one.from, `${Math.round(one.seconds / 60)} min`, one.waits ? "yes" : ""]));
  rows("figures", Object.entries(found.figures).map(([name, value]) => [name, value]));
  before = found;
}

async function turn() {
  try {
    show(await (await fetch("admin.json")).json());
  } catch {
    byId("state").textContent = "It does not answer.";
  }
  setTimeout(turn, EVERY);
}
turn();
