# SPDX-License-Identifier: Apache-2.0
"""The kit's command `rt` as a module of Python, for the scripts that prove crates side by side.

What they call of it is listed here. If a kit has none of that, or in another form, there is no module, and the scripts run the command instead."""
import importlib.machinery
import importlib.util
import inspect
import os
import shutil
import subprocess
import sys
from types import ModuleType

# The functions that are called, with the names of their parameters.
FUNCTIONS = {
    "ci_over": ("aside", "anew", "names", "origin"),
    "in_lanes": ("tasks",),
    "run": ("crate", "tests", "ending"),
    "ending": (),
    "free": (),
    "processors": (),
    "Kept": ("crates", "anew"),
}
# The same of a kit before that, whose `rt ci` keeps nothing.
OLDER_FUNCTIONS = {
    "must_fail_all": ("crate", "edits", "flags"),
    "handles_of": ("root",),
    "stop": ("why",),
}
# What a script does if there is no module.
BY_COMMAND = "`rt` itself is run, with fewer jobs"


def command() -> str:
    """The path of `rt`; ends the script if there is none."""
    path = shutil.which("rt")
    if path is None:
        sys.exit("the Rattle kit (`rt`) is not on the path: see docs/INSTALL.md")
    return path


def text_of_command() -> str:
    """The path of the kit's own `rt`, in the folder of its first page: what is on the path may be a script that starts it."""
    page = subprocess.run([command(), "doc"], stdin=subprocess.DEVNULL, capture_output=True, text=True).stdout.strip()
    return os.path.join(os.path.dirname(page), "bin", "rt")


def lacking(module: ModuleType, wanted: dict[str, tuple[str, ...]]) -> list[str]:
    """Which of these functions the module has not, or with other parameters."""
    found = {name: getattr(module, name, None) for name in wanted}
    return [name for name, call in found.items() if not callable(call) or tuple(inspect.signature(call).parameters) != wanted[name]]


def load(otherwise: str = BY_COMMAND) -> ModuleType | None:
    """The kit's command as a module; None if this kit has another form, and a line that says why, and what the script does then."""
    return loaded(FUNCTIONS, otherwise)


def load_older() -> ModuleType | None:
    """The same for a kit whose `rt ci` keeps nothing."""
    return loaded(OLDER_FUNCTIONS, BY_COMMAND)


def loaded(wanted: dict[str, tuple[str, ...]], otherwise: str) -> ModuleType | None:
    """The kit's command as a module, if it has these functions."""
    path = text_of_command()
    loader = importlib.machinery.SourceFileLoader("rt", path)
    spec = importlib.util.spec_from_loader("rt", loader)
    module = importlib.util.module_from_spec(spec)
    sys.modules["rt"] = module
    try:
        loader.exec_module(module)
        others = lacking(module, wanted)
    except (ImportError, SyntaxError, ValueError, AttributeError, OSError) as error:
        others = [str(error)]
    if others:
        why = f"{path} has another form than tools/kit.py knows ({', '.join(others)})"
        print(f"kit: {why}, so {otherwise}", file=sys.stderr, flush=True)
        return None
    return module
