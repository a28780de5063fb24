# SPDX-License-Identifier: Apache-2.0
"""What tools/python_rules.py takes for an edit of `sys.path`, and what it says of each rule that is broken."""
from pathlib import Path

import pytest
import python_rules

EDITS = """import sys
sys.path.insert(0, "a")
print(sys.path, sys.path[0])
sys.path[:0] = ["a"]
sys.path += ["a"]
del sys.path[0]
path = [*sys.path]
"""


# With `#` in place of each `--`, so that it lets nothing through here.
LETS_THROUGH = """a = 1  -- noqa
b = 1  -- noqa: E501, F401
c = 1  -- type: ignore[attr-defined]
d = 1  -- type: ignore
-- what noqa is
"""


def test_edits_of_sys_path(tmp_path: Path) -> None:
    """Where it is read, it is not edited; an entry script and a file that is let through may."""
    file = tmp_path / "some.py"
    file.write_text(EDITS)
    assert python_rules.edits_of_path(str(file)) == [2, 4, 5, 6]
    told = python_rules.of_path({str(file): False}, [])
    assert [line.partition(": ")[0] for line in told] == [f"{file}:{line}" for line in (2, 4, 5, 6)]
    assert python_rules.of_path({str(file): True}, []) == python_rules.of_path({str(file): False}, [str(file)]) == []


def test_a_breach_of_flake8_is_told(tmp_path: Path) -> None:
    file = tmp_path / "some.py"
    file.write_text(f"import os\nWIDE = \"{'x' * 160}\"\n")
    told = python_rules.of_flake8({str(file): False}, {"max-line-length": 160, "per-file-ignores": ["other.py: E501"]})
    assert [line.split()[1] for line in told] == ["F401", "E501"]


def test_what_lets_a_rule_through(tmp_path: Path) -> None:
    """It names the rule, and the rule has a reason."""
    file = tmp_path / "some.py"
    file.write_text(LETS_THROUGH.replace("--", "#"))
    told = python_rules.let_through(str(file), {"F401": "why", "attr-defined": "why"})
    assert [line.removeprefix(f"{file}:").partition(" through")[0] for line in told] == ["1: it lets all rules", "2: it lets E501", "4: it lets all rules"]


@pytest.mark.parametrize(("path", "is_entry"), [("tools/python_rules.py", True), ("front/mfront", True), ("front/mserve_front/web.py", False)])
def test_files_that_are_looked_at(path: str, is_entry: bool) -> None:
    assert dict(python_rules.scripts())[path] is is_entry
