#!/usr/bin/env python3
# SPDX-License-Identifier: Apache-2.0
"""Whether the modules of the front's pages keep their types, by Debian's TypeScript: what is called is there and takes what it is given, and no name is
unused. It makes nothing; a browser runs the modules as they are.

Each breach is a line; status 1 if there is one. Without TypeScript nothing is looked at, and that is said."""
import glob
import os
import shutil
import subprocess
import sys

from sources import TOP

INSTALL = "apt-get install node-typescript"
RULES = ("--noEmit", "--allowJs", "--checkJs", "--noUnusedLocals", "--target", "es2022", "--module", "es2022", "--lib", "es2022,dom,dom.iterable")


def modules() -> list[str]:
    """The modules of the page and of the operator's page, by their paths from the top."""
    return sorted(os.path.relpath(path, TOP) for folder in ("page", "admin") for path in glob.glob(os.path.join(TOP, "front", folder, "*.js")))


def breaches(paths: list[str], folder: str = TOP) -> list[str]:
    """What TypeScript says of these modules."""
    done = subprocess.run(["tsc", *RULES, *paths], cwd=folder, stdin=subprocess.DEVNULL, capture_output=True, encoding="utf-8")
    return (done.stdout + done.stderr).splitlines() if done.returncode else []


def main() -> int:
    """Looks at all modules, and prints what is wrong."""
    if shutil.which("tsc") is None:
        print(f"page_types: tsc is missing, so nothing is looked at: {INSTALL}")
        return 0
    found = breaches(modules())
    for line in found:
        print(f"page_types: {line}")
    return 1 if found else 0


if __name__ == "__main__":
    sys.exit(main())
