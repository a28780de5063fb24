// SPDX-License-Identifier: Apache-2.0
/** Questions in a dialog of the browser: it keeps the focus, and Escape says no. */
import { byId, make } from "./dom.js";

/** Asks, and gives whether the answer was yes. `words` are the question, what it says besides, and what the button for yes says. */
export function confirmed({ question, about = "", yes = "Yes", isDanger = false, body = [] }) {
  const dialog = make("dialog", { "aria-labelledby": "question", "aria-describedby": about ? "about" : null });
  const no = make("button", { type: "button" }, "Cancel");
  const go = make("button", { type: "submit", class: isDanger ? "danger" : "primary" }, yes);
  const form = make("form", { method: "dialog" },
    make("h2", { id: "question" }, question), ...(about ? [make("p", { id: "about", class: "wrapped" }, about)] : []), ...body,
    make("div", { class: "buttons" }, no, go));
  dialog.append(form);
  byId("dialogs").append(dialog);
  const before = document.activeElement;
  return new Promise((answered) => {
    let isYes = false;
    form.addEventListener("submit", () => { isYes = true; });
    no.addEventListener("click", () => dialog.close());
    dialog.addEventListener("close", () => {
      ended(dialog, before);
      answered(isYes);
    });
    dialog.showModal();
    (body.length ? dialog.querySelector("input, textarea, select") ?? go : no).focus();
  });
}

/** Shows lines until the dialog is closed. */
export function shown(title, parts) {
  const dialog = make("dialog", { class: "wide", "aria-labelledby": "title" });
  const close = make("button", { type: "submit", class: "primary" }, "Close");
  dialog.append(make("form", { method: "dialog" }, make("h2", { id: "title" }, title), ...parts, make("div", { class: "buttons" }, close)));
  byId("dialogs").append(dialog);
  const before = document.activeElement;
  dialog.addEventListener("close", () => ended(dialog, before));
  dialog.showModal();
  close.focus();
}

/** Takes a dialog away, and gives the focus back. A field that has got it back from the browser already would not take text: it is left first. */
function ended(dialog, before) {
  dialog.remove();
  before?.blur?.();
  before?.focus?.();
}
