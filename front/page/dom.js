// SPDX-License-Identifier: Apache-2.0
/** Elements of the page. Texts are set as text alone: nothing here, or elsewhere in the page, reads a text as markup. */

/** Makes an element with attributes and children; a child that is a string becomes text. Attributes that are null or false are left out. */
export function make(tag, attributes = {}, ...children) {
  const element = document.createElement(tag);
  for (const [name, value] of Object.entries(attributes)) {
    setAttribute(element, name, value);
  }
  element.append(...children);
  return element;
}

/** Sets an attribute; null or false takes it away. */
export function setAttribute(element, name, value) {
  if (value === null || value === false) {
    element.removeAttribute(name);
  } else {
    element.setAttribute(name, value === true ? "" : String(value));
  }
}

/** The element with an id, of whichever kind the page has it.
 * @returns {any} */
export function byId(id) {
  return document.getElementById(id);
}

/** Says something to those who see the page and to those who hear it: it goes after a while. `kind` is "note" or "fault". */
export function tell(text, kind = "note") {
  const place = byId("notices");
  const close = make("button", { type: "button", class: "quiet", "aria-label": "Close this message" }, "×");
  const notice = make("div", { class: `notice of-${kind}`, role: kind === "fault" ? "alert" : "status" }, make("p", {}, text), close);
  close.addEventListener("click", () => notice.remove());
  place.append(notice);
  while (place.children.length > 3) {
    place.firstElementChild.remove();
  }
  if (kind !== "fault") {
    setTimeout(() => notice.remove(), 8000);
  }
}

/** A count with its word: `1 line`, `2 lines`. */
export function counted(count, word) {
  return `${count.toLocaleString("en")} ${word}${count === 1 ? "" : "s"}`;
}

/** A text as a screen shows it: control characters but the tab as they are on the wire, `\1B`. */
export function visible(text) {
  return text.replace(/[\x00-\x08\x0a-\x1f\x7f]/g, (found) => `\\${found.charCodeAt(0).toString(16).toUpperCase().padStart(2, "0")}`);
}
