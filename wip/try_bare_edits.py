# SPDX-License-Identifier: Apache-2.0
"""Tries single edits of a crate, each by one check of one function over the contracts of all else: minutes where ./test edits proves the crate first.

    try_bare_edits.py ROOT CRATE STEM=FUNCTION ..     FUNCTION as bare_contracts.py's --only takes it

ROOT is a clone for this alone, in which tools/libraries.py has placed what is kept: an edit is written into its sources, and taken back after the check.
The function without the edit has to be known to have no holes. A verdict is by the row of docs/TESTING.md, as tools/try_edits.py gives it.

A script of a session, not a tool: no test holds it."""
import os
import re
import subprocess
import sys

REFUSAL = re.compile(r"^(?:\./)?proofs/\S+: error: |^note: src/\S+ it is not proved", re.M)


def parts(text: str) -> tuple[str, list[tuple[str, str]]]:
    """The file that an edit changes, and what it puts in place of what."""
    return re.search(r"^file: (.*)$", text, re.M)[1], re.findall(r"^old: (.*)\nnew: (.*)$", text, re.M)


def main() -> int:
    """Tries the edits; the status is 1 if one was let through, or refused by another function or clause than its row names."""
    root, crate, *wanted = sys.argv[1:]
    root = os.path.realpath(root)
    sys.path.insert(0, f"{root}/tools")
    import try_edits
    with open(f"{root}/docs/TESTING.md", encoding="utf-8") as file:
        rows = try_edits.rows_of(file.read())[0]
    failed = 0
    for stem, function in (word.split("=") for word in wanted):
        with open(f"{root}/crates/{crate}/edits/{stem}.edit", encoding="utf-8") as file:
            path, pairs = parts(file.read())
        with open(f"{root}/crates/{crate}/{path}", encoding="utf-8") as file:
            source = file.read()
        edited = source
        for old, new in pairs:
            assert edited.count(old) == 1, f"{stem}: {old!r} stands there {edited.count(old)} times"
            edited = edited.replace(old, new)
        try:
            with open(f"{root}/crates/{crate}/{path}", "w", encoding="utf-8") as file:
                file.write(edited)
            command = ["python3", f"{root}/wip/bare_contracts.py", root, crate, "--only", function]
            said = subprocess.run(command, stdout=subprocess.PIPE, stderr=subprocess.STDOUT, text=True, check=False).stdout
        finally:
            with open(f"{root}/crates/{crate}/{path}", "w", encoding="utf-8") as file:
                file.write(source)
        fault = try_edits.fault_of(rows, crate, stem, try_edits.REFUSED + said) if REFUSAL.search(said) else f"LET THROUGH, or no verdict: {said[-300:]}"
        failed += fault is not None
        print(f"{crate}/{stem}: {fault or 'refused, as its row says'}", flush=True)
        with open(f"/tmp/edit-{crate}-{stem}.log", "w", encoding="utf-8") as file:
            file.write(said)
    return 1 if failed else 0


if __name__ == "__main__":
    sys.exit(main())
