# SPDX-License-Identifier: Apache-2.0
"""There and back with GT.M: a database with every kind of subscript goes to mserve and comes back equal.

GT.M is Debian's `fis-gtm`. Where it is not installed these tests are skipped; with the variable CI set that is a failure."""
from __future__ import annotations

import glob
import os
import re
import subprocess
from dataclasses import dataclass
from pathlib import Path

import pytest
from conftest import ALICE, Command, Server

FOUND = sorted(glob.glob("/usr/lib/*/fis-gtm/V*"))
pytestmark = pytest.mark.skipif(not FOUND and not os.environ.get("CI"), reason="GT.M is not there: apt-get install fis-gtm")

# A walk over a global by $ORDER, which writes each node that has a text: the same lines run in both systems.
WALK = """WALK ; writes the nodes of ^X, level by level
 D BELOW
 Q
BELOW S L=1,R(1)="^X",S(1)=""
 F  Q:L<1  D STEP
 Q
STEP S S(L)=$O(@R(L)@(S(L))) I S(L)="" S L=L-1 Q
 S N=R(L),Q="" F I=1:1:L S Q=Q_"/"_$L(S(I))_":"_S(I)
 W:$D(@R(L)@(S(L)))#10 Q,"=",@R(L)@(S(L)),!
 I $D(@R(L)@(S(L)))>9 S R(L+1)="^X(" F I=1:1:L S R(L+1)=R(L+1)_"S("_I_")"_$S(I=L:")",1:",")
 I $D(@R(L)@(S(L)))>9 S L=L+1,S(L)=""
 Q
"""
# Texts of every kind that both systems have as subscripts, in no order.
SUBSCRIPTS = ["1", "-1", "10", "9", "-10", ".5", "-.5", "1.25", "123456789012345678", "-123456789012345678", ".000000000000000001", "999999999999999999",
              "1234567890123456789", "0123", "01", "1.0", "-0", "+1", "1E5", "1e5", "--1", "1.", "0.5", "a", "A", "Z", "%", " ", " 1", "1 ", "a b", 'a"b', '""',
              ",", "a,b",
              "(", ")", "=", "^X", "\t", "\n", "a\x01b", "\x7f", "\x1f", "~", "_", "a_b", "$C(9)", "x" * 200]


@dataclass
class Gtm:
    """A database of GT.M in a folder."""

    folder: Path

    def environment(self) -> dict[str, str]:
        """What its programs are run with."""
        return {**os.environ, "gtm_dist": FOUND[-1], "gtmgbldir": str(self.folder / "g.gld"), "gtm_chset": "M", "LC_ALL": "C",
                "gtmroutines": f"{self.folder} {FOUND[-1]}/libgtmutil.so {FOUND[-1]}"}

    def run(self, program: str, *words: str, stdin: str = "") -> str:
        """What a program of GT.M writes."""
        done = subprocess.run([f"{FOUND[-1]}/{program}", *words], input=stdin.encode(), capture_output=True, timeout=60, env=self.environment(),
                              cwd=self.folder)
        assert done.returncode == 0, (done.stdout, done.stderr)
        return done.stdout.decode("latin1")

    def lines(self, *lines: str) -> str:
        """What lines of M write, each run from a prompt."""
        return self.run("mumps", "-run", "LINES", stdin="\n".join([*lines, ""]))

    def extract(self, name: str, form: str = "zwr") -> str:
        """The database as an extract, without its head; the file stays."""
        self.run("mupip", "extract", f"-format={form}", name)
        return (self.folder / name).read_text("latin1").split("\n", 2)[2]


def gtm(folder: Path) -> Gtm:
    """A new database."""
    folder.mkdir()
    base = Gtm(folder)
    base.run("mumps", "-run", "GDE", stdin=f"change -segment DEFAULT -file={folder}/g.dat\nchange -region DEFAULT -record_size=8192 -key_size=1019\nexit\n")
    base.run("mupip", "create")
    (folder / "LINES.m").write_text("LINES ;\n F  R L Q:L=\"\"  X L\n Q\n")
    (folder / "WALK.m").write_text(WALK)
    return base


def expression(text: str) -> str:
    """A text as an expression of M."""
    parts = re.findall(r'[ !#-~]+|.', text, re.DOTALL)
    return "_".join(f'"{part}"' if part[0].isprintable() and part != '"' else f"$C({ord(part)})" for part in parts) or '""'


@pytest.fixture
def filled(tmp_path: Path) -> Gtm:
    """A database whose ^X has every kind of subscript, at one level and below another, and texts of every kind."""
    base = gtm(tmp_path / "gtm")
    texts = ["", "1", "01", 'q"uote', "\n", "\r\n\t\0", "a\x7fb", "x" * 3000, " ", "\x01\x02"]
    base.lines(*[f"S ^X({expression(text)})={expression(texts[number % len(texts)])}" for number, text in enumerate(SUBSCRIPTS)],
               *[f"S ^X(2,{expression(text)},3)={expression(text)}" for text in SUBSCRIPTS[::5]],
               *[f"S ^X({','.join(map(str, range(1, count + 1)))})={count}" for count in range(4, 16)])
    return base


@pytest.mark.parametrize("way", ["straight", "terminal"])
@pytest.mark.parametrize("form", ["zwr", "json"])
def test_there_and_back(server: Server, command: Command, filled: Gtm, tmp_path: Path, way: str, form: str) -> None:
    nodes = filled.extract("there.zwr")
    assert nodes.count("\n") >= 60
    place = [server.port, ALICE] if way == "terminal" else ["store.db", "ALICE"]
    assert command("mglobal", *place, "import", *([] if way == "terminal" else ["--new-account"]), filled.folder / "there.zwr").status == 0
    assert command("mglobal", *place, "export", "^X", "--to", "back", "--format", form).status == 0
    assert command("mglobal", *place, "compare", filled.folder / "there.zwr").output.endswith(" compared: all equal\n")
    if form == "json":
        assert command("mglobal", "other.db", "ALICE", "import", "--new-account", "back").status == 0
        assert command("mglobal", "other.db", "ALICE", "export", "^X", "--to", "back").status == 0
    assert (tmp_path / "back").read_text("latin1").split("\n", 2)[2] == nodes
    again = gtm(tmp_path / "again")
    again.run("mupip", "load", "-format=zwr", str(tmp_path / "back"))
    assert again.extract("again.zwr") == nodes


def test_walk_is_the_same_in_both(server: Server, command: Command, filled: Gtm, tmp_path: Path) -> None:
    filled.extract("there.zwr")
    (tmp_path / "WALK.m").write_text(WALK)
    assert command("mglobal", server.port, 3, "import", filled.folder / "there.zwr").status == 0
    assert command("mroutine", server.port, 3, "load", "--check", "WALK.m").status == 0
    ran = command("mshell", server.port, 3, stdin="D ^WALK\n")
    assert ran.status == 0 and ran.output == filled.lines("D ^WALK")


def test_go_of_gtm(command: Command, tmp_path: Path) -> None:
    base = gtm(tmp_path / "gtm")
    base.lines('S ^X(1)="a""b",^X("x",$C(9))=" ",^X("y")="",^Y=$C(1)')
    nodes = base.extract("there.go", "go")
    assert command("mglobal", "store.db", "A", "import", "--new-account", "gtm/there.go").status == 0
    assert command("mglobal", "store.db", "A", "export", "--format", "go", "--to", "back.go").status == 0
    assert (tmp_path / "back.go").read_text("latin1").split("\n", 2)[2] == nodes
    again = gtm(tmp_path / "again")
    again.run("mupip", "load", "-format=go", str(tmp_path / "back.go"))
    assert again.extract("again.go", "go") == nodes


def test_what_gtm_has_and_mserve_has_not(command: Command, tmp_path: Path) -> None:
    """Numbers of more than eighteen digits before the point, codes over 127, and texts of more than 4,095 characters."""
    base = gtm(tmp_path / "gtm")
    base.lines('S ^X(1)="good",^X(1E18)=1,^X(1E-19)=1,^X($C(233))=1,^X(2)=$C(200),^X(3)=$J("",4096),^X(4)=$J("",4095)')
    base.extract("there.zwr")
    ran = command("mglobal", "store.db", "A", "import", "--new-account", "gtm/there.zwr", "--skip")
    assert ran.output.startswith("2 nodes imported, 5 lines cannot come in") and ran.status == 1
    for reason in ("^X: the number 1000000000000000000 is no number here", "^X: the number .0000000000000000001 is no number here", "has the code 233",
                   "has the code 200",
                   "^X(3): its text has 4,096 characters"):
        assert reason in ran.told
    assert command("mglobal", "store.db", "A", "count").output == "^X: 2 nodes\n"
