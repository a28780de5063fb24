# SPDX-License-Identifier: Apache-2.0
"""Lines of M on GT.M (Debian's `fis-gtm`), one after another in one process, each with what it writes and the code that ends it."""
from __future__ import annotations

import glob
import os
import subprocess
from dataclasses import dataclass
from pathlib import Path

# A line's output ends by this character, its code comes before the next one.
MARK = "\x1e"
# Reads lines and runs each as a level of its own. An error unwinds to the level of the loop, so that nothing of the line goes on. It begins with a
# call that hands something over: before the first one of a process GT.M hides no formal parameters of a DO without a list.
LOOP = """against ;
 u $p:(width=1048576:nowrap) d once(1)
 f  r %line q:$zeof  d run
 q
run n $et s $et="zg "_$zl_":fault^against"
 x %line
 s %line=$x w $c(30),$c(30) s $x=%line q
once(%x) q
fault s %line=$ec,%line(1)=$x,$ec="" w $c(30),%line,$c(30) s $x=%line(1)
 q
"""


@dataclass(frozen=True, slots=True)
class Reply:
    """What a line wrote, with a line feed for each `!`, and the code that ended it, or nothing."""

    text: str
    code: str = ""


def gtm_folder() -> str | None:
    """The folder of GT.M's program, if it is installed."""
    found = sorted(glob.glob("/usr/lib/*/fis-gtm/*/mumps"))
    return os.path.dirname(found[-1]) if found else None


def code_of(codes: str) -> str:
    """The standard's code among those of `$ECODE`, or the first one."""
    names = [name for name in codes.split(",") if name]
    return next((name for name in names if name.startswith("M")), names[0] if names else "")


class Gtm:
    """GT.M with a new database in a folder, and these routines."""

    def __init__(self, folder: Path, routines: dict[str, list[str]]) -> None:
        self.folder, self.dist = folder, gtm_folder()
        if self.dist is None:
            raise FileNotFoundError("GT.M is not there: apt-get install fis-gtm")
        for name, lines in {"against": LOOP.splitlines(), **routines}.items():
            (folder / f"{name}.m").write_text("\n".join([*lines, ""]))
        self._run("GDE", f"change -segment DEFAULT -file={folder}/against.dat\nchange -region DEFAULT -record_size=8192 -key_size=1019\nexit\n")
        self._run(None, "", "mupip", "create")

    def _run(self, routine: str | None, lines: str, program: str = "mumps", *words: str) -> str:
        """What a program of GT.M writes. It evaluates both sides of `&` and `!`, and from the left, as the standard has it."""
        environment = {**os.environ, "gtm_dist": str(self.dist), "gtmgbldir": str(self.folder / "against.gld"), "gtm_chset": "M", "LC_ALL": "C",
                       "gtm_boolean": "1",
                       "gtm_side_effects": "1", "gtmroutines": f"{self.folder} {self.dist}/libgtmutil.so", "gtm_tmp": str(self.folder),
                       "HOME": str(self.folder)}
        command = [f"{self.dist}/{program}", *(["-run", routine] if routine else words)]
        done = subprocess.run(command, input=lines.encode("latin1"), capture_output=True, timeout=300, env=environment, cwd=self.folder)
        if done.returncode and routine != "against":
            raise OSError(f"{program} {routine or words}: status {done.returncode}: {(done.stdout + done.stderr).decode('latin1')[-500:]}")
        return done.stdout.decode("latin1")

    def play(self, lines: list[str]) -> list[Reply]:
        """The replies to lines, which share variables and globals. They are fewer than the lines if GT.M crashes, as it does at some."""
        parts = self._run("against", "".join(f"{line}\n" for line in lines)).split(MARK)
        return [Reply(parts[2 * place], code_of(parts[2 * place + 1])) for place in range(min(len(lines), (len(parts) - 1) // 2))]
