#!/usr/bin/env python3
# SPDX-License-Identifier: Apache-2.0
"""Checks a crate over the contracts of the crates below it, whether those are proved or not, so that several crates can be proved at once.

    tools/over_contracts.py NAME [rattle's flags]   as --only FUNCTION (again for more), --only '' for contracts alone, --jobs 2

A crate below with a current library in its `out/` is taken from there (tools/libraries.py puts there what `rt ci` kept). Of each other one a copy is made
in the crate's `out/contracts/`, with its sources, definitions, contracts and lemmas, in which each proof of a function is a hole. The check runs with
`--allow-holes`, so it gives no verdict: a function that is fine reads `no holes`, or `depends on a hole in` one below. Faults of those definitions and
contracts are printed too. The first check of a clone reads all that is below, which takes minutes; what it read is kept. The status is rattle's."""
import os
import sys
from types import ModuleType

import kit
from sources import TOP, crates_named

# The files of a function's proof, in place of which a hole stands.
PROOFS = frozenset({"Answers.antt", "Invariants.antt", "Proof.antt"})
PARTS = ("src", "specs", "proofs")


def hole(crate: str, function: str) -> str:
    """The proof of a function, or of a cycle of them, as a hole: of the path of its folder below `proofs/`."""
    name = os.path.basename(function)
    module = ".".join(["Rattle", crate, "proofs", *function.split("/")])
    # the statement of a cycle is in the cycle's own module
    module += "" if name.startswith("+") else ".Statement"
    return f"use {module}.{{statement}}\n\npub {name}_spec : {{M : Type 1}} → statement M\n{name}_spec = ?\n"


def text_at(path: str) -> str:
    """The text of a file."""
    with open(path, encoding="utf-8") as file:
        return file.read()


def contract_files(crate: str, folder: str) -> dict[str, str]:
    """The files of a crate, by their paths in it, with a hole in place of each function's proof."""
    texts = {}
    for part in PARTS:
        for place, _, files in os.walk(os.path.join(folder, part)):
            path = os.path.relpath(place, folder)
            left_out = set(PROOFS).intersection(files) if part == "proofs" else set()
            if left_out:
                texts[f"{path}/Proof.antt"] = hole(crate, os.path.relpath(place, os.path.join(folder, part)))
            texts |= {f"{path}/{name}": text_at(os.path.join(place, name)) for name in files if name not in left_out}
    return texts


def write_files(folder: str, texts: dict[str, str]) -> None:
    """Makes a folder hold these files and no others. A file that is as it is to be is left alone, so what was checked of it counts."""
    for place, _, files in os.walk(folder):
        for name in files:
            if os.path.relpath(os.path.join(place, name), folder) not in texts:
                os.remove(os.path.join(place, name))
    for path, text in texts.items():
        at = os.path.join(folder, path)
        os.makedirs(os.path.dirname(at), exist_ok=True)
        if not os.path.exists(at) or text_at(at) != text:
            with open(at, "w", encoding="utf-8") as file:
                file.write(text)


def words(rtlib: ModuleType, crate, room: str) -> list[str]:
    """What rattle is given for the crate: built libraries of crates below as far as they are current, and the copies of the others."""
    built: set[str] = set()
    for below in crate.below():
        if all(it.name in built for it in below.deps) and below.is_built():
            built.add(below.name)
    others = [below for below in crate.below() if below.name not in built]
    of_kit = dict.fromkeys(["core", *crate.of_kit, *[name for below in others for name in below.of_kit]])
    given = ["--crate-name", crate.name, "src/main.rt" if crate.is_program else "src/lib.rt", "-L", f"dependency={rtlib.KIT}/rlibs"]
    given += [word for name in of_kit for word in ("--extern", f"{name}={rtlib.KIT}/rlibs/{name}.rlib")]
    for below in crate.below():
        if below.name in built:
            given += ["--extern", f"{below.name}={below.rlib}", "-L", f"dependency={os.path.dirname(below.rlib)}"]
            continue
        write_files(os.path.join(room, below.name), contract_files(below.name, below.folder))
        uses = dict.fromkeys(["core", *below.of_kit, *[it.name for it in below.deps]])
        given += ["--lib", f"{below.name}:{','.join(uses)}={room}/{below.name}/src/lib.rt"]
    print("over the contracts of:", ", ".join(below.name for below in others) or "none, all are built", flush=True)
    return [*given, "--antt-project", f"{rtlib.KIT}/rattle/logic/antt-project.json", "--logic-built", f"{rtlib.KIT}/logic_built", "--links", f"{crate.name}="]


def main(arguments: list[str]) -> int:
    """Runs the check in place of this process. The status is 2 for a crate that is not there, and 1 if this kit has another form."""
    if crates_named(arguments[:1], "over_contracts", __doc__) is None:
        return 2
    module = kit.load("nothing is checked")
    if module is None:
        return 1
    os.chdir(TOP)
    crate = next(it for it in module.rtlib.crates_below(TOP) if it.name == arguments[0])
    room = os.path.join(crate.folder, "out", "contracts")
    os.makedirs(os.path.join(room, "kept"), exist_ok=True)
    given = words(module.rtlib, crate, room)
    os.chdir(crate.folder)
    os.execv(module.rtlib.RATTLE, [module.rtlib.RATTLE, "check", *given, "--incremental", os.path.join(room, "kept"), "--allow-holes", *arguments[1:]])
    return 0


if __name__ == "__main__":
    if not sys.argv[1:] or {"-h", "--help"} & {*sys.argv[1:]}:
        print(__doc__)
        sys.exit(0 if sys.argv[1:] else 2)
    sys.exit(main(sys.argv[1:]))
