#!/usr/bin/env python3
# SPDX-License-Identifier: Apache-2.0
"""Whether the Python of this tree keeps the rules of pyproject.toml: flake8 over all files, mypy over the clients and the front, that no file edits
`sys.path` but a script that is run by its name, which begins with `#!`, and that a line lets a rule through by its name alone, and one that pyproject.toml
has with its reason. It needs Debian's flake8 and mypy.

Each breach is a line; status 1 if there is one. What pyproject.toml lets through has its reason beside it."""
import ast
import os
import re
import shutil
import subprocess
import sys
import tomllib
from collections.abc import Iterator

from licence_lines import PASSED_OVER
from sources import TOP

INSTALL = "apt-get install flake8 mypy"
# A comment that lets rules through, with their names.
LETS = re.compile(r"#\s*(?:noqa(?::\s*([A-Z]\d+(?:[,\s]+[A-Z]\d+)*))?|type:\s*ignore(?:\[([\w, -]+)\])?)")
# What changes a list.
CHANGES = ("insert", "append", "extend", "remove", "clear", "pop", "__setitem__")


def scripts() -> Iterator[tuple[str, bool]]:
    """The Python files by their paths from the top, and whether each begins with `#!`."""
    for folder, folders, files in os.walk(TOP):
        folders[:] = sorted(set(folders) - PASSED_OVER)
        for name in sorted(files):
            path = os.path.join(folder, name)
            with open(path, "rb") as file:
                first = file.readline(100)
            if name.endswith(".py") or first.startswith(b"#!") and b"python3" in first:
                yield os.path.relpath(path, TOP), first.startswith(b"#!")


def is_path(node: ast.AST) -> bool:
    """Whether an expression is `sys.path`, or a part of it."""
    if isinstance(node, ast.Subscript):
        node = node.value
    return isinstance(node, ast.Attribute) and node.attr == "path" and isinstance(node.value, ast.Name) and node.value.id == "sys"


def changed(node: ast.AST) -> list[ast.expr]:
    """What a part of a program gives another value."""
    if isinstance(node, ast.Call) and isinstance(node.func, ast.Attribute) and node.func.attr in CHANGES:
        return [node.func.value]
    if isinstance(node, ast.Assign | ast.Delete):
        return node.targets
    return [node.target] if isinstance(node, ast.AugAssign) else []


def edits_of_path(path: str) -> list[int]:
    """The lines of a file that edit `sys.path`."""
    with open(os.path.join(TOP, path), "rb") as file:
        tree = ast.parse(file.read(), path)
    return sorted(one.lineno for node in ast.walk(tree) for one in changed(node) if is_path(one))


def of_path(files: dict[str, bool], let_through: list[str]) -> list[str]:
    """The edits of `sys.path` that are not in entry scripts."""
    return [f"{path}:{line}: it edits sys.path, which is for entry scripts: name the folder in the pytest.ini" for path, is_entry in files.items()
            if not is_entry and path not in let_through for line in edits_of_path(path)]


def let_through(path: str, reasons: dict[str, str]) -> list[str]:
    """The comments of a file that let a rule through without its name, or one that has no reason."""
    found = []
    with open(os.path.join(TOP, path), encoding="utf-8") as file:
        for number, line in enumerate(file, 1):
            for match in LETS.finditer(line):
                unknown = [name for name in re.split(r"[,\s]+", match[1] or match[2] or "") if name not in reasons]
                found += [f"{path}:{number}: it lets {name or 'all rules'} through, without a reason in pyproject.toml" for name in unknown]
    return found


def said_by(*words: str) -> list[str]:
    """What a linter says."""
    done = subprocess.run(words, cwd=TOP, stdin=subprocess.DEVNULL, capture_output=True, encoding="utf-8")
    told = (done.stdout + done.stderr).splitlines()
    return told if done.returncode else []


def of_flake8(files: dict[str, bool], rules: dict[str, object]) -> list[str]:
    """What flake8 says by these rules, and by no others."""
    words = [f"--{key}={','.join(value) if isinstance(value, list) else value}" for key, value in rules.items()]
    return said_by("flake8", "--isolated", *words, *files)


def of_mypy() -> list[str]:
    """What mypy says; it leaves nothing in the tree."""
    return said_by("mypy", "--config-file", "pyproject.toml", "--cache-dir", os.devnull, "--no-error-summary")


def main() -> int:
    missing = [name for name in ("flake8", "mypy") if shutil.which(name) is None]
    if missing:
        print(f"python_rules: {' and '.join(missing)} missing: {INSTALL}")
        return 1
    with open(os.path.join(TOP, "pyproject.toml"), "rb") as file:
        rules = tomllib.load(file)["tool"]
    files = dict(scripts())
    own = rules["python_rules"]
    found = [*of_path(files, own["edits_of_sys_path"]), *(line for path in files for line in let_through(path, own["let_through"])),
             *of_flake8(files, rules["flake8"]), *of_mypy()]
    for line in found:
        print(f"python_rules: {line}")
    return 1 if found else 0


if __name__ == "__main__":
    sys.exit(main())
