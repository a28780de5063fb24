// SPDX-License-Identifier: Apache-2.0
/** A user's own password: shown while it is typed, and changed. */
import { confirmed } from "./dialog.js";
import { byId, make, tell } from "./dom.js";
import { changePassword } from "./service.js";

/** Has a box show and hide what is typed in fields. */
export function shows(box, ...fields) {
  box.addEventListener("change", () => fields.forEach((field) => { field.type = box.checked ? "text" : "password"; }));
}

/** Hides a password again, and forgets it. */
export function forget(field, box) {
  field.value = "";
  field.type = "password";
  box.checked = false;
}

/** Asks a user for the password and a new one until they are taken, or the user gives it up. */
export async function ask(user) {
  let about = "At least 12 characters: several words are best. Your other sessions end, and your tokens are removed.";
  for (;;) {
    const [old, first, again, box] = [field("old-password", "current-password"), field("new-password", "new-password"),
      field("again-password", "new-password"), make("input", { type: "checkbox", id: "show-passwords" })];
    shows(box, old, first, again);
    // Not shown: by it a password manager knows whose password it is.
    const whose = make("input", { type: "text", autocomplete: "username", value: user, hidden: "" });
    const body = [whose, label(old, "Password"), old, label(first, "New password"), first, label(again, "New password again"), again,
      make("label", { class: "check" }, box, " Show the passwords")];
    if (!await confirmed({ question: "Change your password", about, yes: "Change it", body })) {
      return;
    }
    const fault = first.value === again.value ? await changePassword(old.value, first.value) : "The two new passwords differ.";
    if (!fault) {
      tell("Your password is changed.");
      return;
    }
    about = fault;
  }
}

function field(id, kind) {
  return make("input", { id, type: "password", autocomplete: kind, required: "" });
}

function label(of, text) {
  return make("label", { for: of.id }, text);
}

const [typed, box] = [byId("password"), byId("show-password")];
shows(box, typed);
