# SPDX-License-Identifier: Apache-2.0
"""tools/coverage.py: how much of a folder of routines the language takes, and the first causes of the rest."""
from __future__ import annotations

import subprocess
import sys
from pathlib import Path

from running import TOP

TOOL = Path(TOP, "tools", "coverage.py")
# One routine that is taken whole but for its tabs, one with four lines of which none is, and one that is the first again.
FILES = {
    "A.m": 'A\t; the first\n\tS X=1\tQ:X\t\tW "\t"\n W 2\n',
    "more/B.m": "B(X,Y)\t; parameters\n\tQ $$F(X)\n S X=$H R Y\n\t W $$G($H)\n",
    "more/C.m": 'A\t; the first\n\tS X=1\tQ:X\t\tW "\t"\n W 2\n',
    "more/C.txt": "no routine\n",
}


def told(*words: object) -> subprocess.CompletedProcess[str]:
    """What the tool says."""
    return subprocess.run([sys.executable, TOOL, *map(str, words)], capture_output=True, text=True, timeout=120)


def test_tables(tmp_path: Path) -> None:
    (tmp_path / "more").mkdir()
    for name, text in FILES.items():
        (tmp_path / name).write_text(text)
    ran = told(tmp_path, "--apart", 3)
    assert (ran.returncode, ran.stderr) == (0, "")
    assert ran.stdout.strip().split("\n") == [
        "routines, language 0", "", "| | as they are | as they are loaded |", "|---|---|---|", "| routines of 1, whole | 0 | 1 |",
        "| lines of 3 | 33.3 % | 100.0 % |",
        "| lines with code of 2 | 50.0 % | 100.0 % |", "", "| first cause | lines | routines |", "|---|---|---|", "",
        "longer routines, language 0", "", "| | as they are | as they are loaded |", "|---|---|---|", "| routines of 1, whole | 0 | 0 |",
        "| lines of 4 | 0.0 % | 0.0 % |",
        "| lines with code of 3 | 0.0 % | 0.0 % |", "", "| first cause | lines | routines |", "|---|---|---|", "| $HOROLOG | 1 | 1 |",
        "| QUIT with a value, which needs language 1 of the account's settings | 1 | 1 |",
        "| a label with parameters, which needs language 1 of the account's settings | 1 | 1 |",
        "| an extrinsic function, which needs language 1 of the account's settings | 1 | 1 |"]


def test_folder_without_routines_and_other_languages(tmp_path: Path) -> None:
    assert (told(tmp_path).returncode, told(tmp_path).stderr) == (1, f"coverage: {tmp_path} has no file .m\n")
    assert "invalid choice: 2" in told(tmp_path, "--language", 2).stderr


def test_language(tmp_path: Path) -> None:
    """A form of language 1 is refused at 0, by its own cause, and taken at 1."""
    (tmp_path / "A.m").write_text("A W $RE(1)\n R X\n")
    ran = [told(tmp_path, "--language", language) for language in (0, 1)]
    assert [(one.returncode, one.stderr) for one in ran] == [(0, "")] * 2
    causes = [one.stdout.strip().partition("| first cause | lines | routines |\n|---|---|---|\n")[2].split("\n") for one in ran]
    assert causes == [["| $REVERSE, which needs language 1 of the account's settings | 1 | 1 |", "| READ | 1 | 1 |"], ["| READ | 1 | 1 |"]]
    assert "| lines of 2 | 50.0 % | 50.0 % |" in ran[1].stdout and "| lines of 2 | 0.0 % | 0.0 % |" in ran[0].stdout
