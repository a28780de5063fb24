# SPDX-License-Identifier: Apache-2.0
"""Checks some functions of a crate over contracts, with each other function of that crate as a hole: minutes where the whole crate takes longer.

    holed.py ROOT COPY CRATE NAME|@MODULE .. [rattle's flags]    NAME as programs.begun, source.Place.leave; @MODULE for all of a module

COPY is a clone of ROOT for this alone. The first call should find libraries placed there (tools/libraries.py of COPY, with the crates that the chain
kept): each crate without one is read from its sources. Later calls bring over CRATE's sources alone, so that what COPY/out-bare keeps stays good;
bring over the crates below by hand where a contract or a definition of theirs has changed.

Verdict: no error above the last line, and no `not proved` of a function that is named; each `depends on a hole` has to be in another function.

A script of a session, not a tool: no test holds it. It reads the sources by their layout."""
import os
import sys
from pathlib import Path

sys.dont_write_bytecode = True
WRITTEN = {"Answers.antt", "Invariants.antt", "Proof.antt"}
HOLE = "use Rattle.{crate}.proofs.{path}.Statement.{{statement}}\n\npub {name}_spec : {{M : Type 1}} → statement M\n{name}_spec = ?\n"


def files_of(folder: Path) -> dict[str, bytes]:
    """The files below a folder but for what was built there, by their paths."""
    found = (it for it in folder.rglob("*") if it.is_file() and "out" not in it.relative_to(folder).parts)
    return {str(it.relative_to(folder)): it.read_bytes() for it in found}


def functions_of(root: str, crate: str) -> list[str]:
    """The crate's functions, as the paths of their proofs, as bare_contracts.py finds them."""
    script = Path(root, "wip", "bare_contracts.py").read_text(encoding="utf-8").replace("\nmain()", "\n")
    words: dict = {}
    exec(compile(script, "bare_contracts", "exec"), words)
    return words["functions"](f"{root}/crates/{crate}")


def main() -> None:
    """Brings the crate over, writes the holes, and becomes the check."""
    root, copy, crate, *words = sys.argv[1:]
    flags = [it for it in words if it.startswith("-")]
    names = [it.replace(".", "/") for it in words if it[0] not in "-@"]
    modules = [it[1:] for it in words if it.startswith("@")]
    known = functions_of(root, crate)
    assert set(names) <= set(known), sorted(set(names) - set(known))
    wanted = {*names, *(it for it in known if it.split("/")[0] in modules)}
    new = files_of(Path(root, "crates", crate))
    for it in known:
        if it not in wanted:
            new = {path: text for path, text in new.items() if not (path.startswith(f"proofs/{it}/") and path.rpartition("/")[2] in WRITTEN)}
            new[f"proofs/{it}/Proof.antt"] = HOLE.format(crate=crate, path=it.replace("/", "."), name=it.rpartition("/")[2]).encode()
    to = Path(copy, "crates", crate)
    old = files_of(to)
    for path in old.keys() - new.keys():
        (to / path).unlink()
    for path, text in new.items():
        if old.get(path) != text:
            (to / path).parent.mkdir(parents=True, exist_ok=True)
            (to / path).write_bytes(text)
    only = [word for it in [*names, *modules] for word in ("--only", it.replace("/", "::"))]
    os.execvp("python3", ["python3", f"{copy}/wip/bare_contracts.py", copy, crate, *only, *flags])


main()
