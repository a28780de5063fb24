# SPDX-License-Identifier: Apache-2.0
"""Lines of tests/test_coming.py as equations for the prover: what the definitions answer is what the second interpreter answers.

    MSERVE=/bin/true MISLANDS=/bin/true /usr/bin/python3 wip/agree.py PARAMETERS NAME [PART ..]

writes crates/mmeaning/proofs/NAME.antt, a case for each line of that list (PARAMETERS or FUNCTIONS) without globals, over those lines of the routine that it
leads to; lines that have a PART in them are left out. Declare it in proofs/Lib.antt, run `rt check` there, and take both away: a hundred cases take some two
minutes. `simp` gives up on long ones (`give the call less to do`) and on numbers whose texts it is not told; any other error is a difference.
"""
from __future__ import annotations

import re
import sys
from pathlib import Path

HERE = Path(__file__).resolve().parent.parent
sys.path[:0] = [str(HERE / "tests"), str(HERE / "tools")]

import test_coming
from second_interpreter.languages import COMING
from second_interpreter.world import World, deep

NAME = "[A-Za-z%][A-Za-z0-9]*"
LEFT_OUT = re.compile(r"\^[A(]|\^ONE|\^P|INS\^|\*\$\$")
SETTINGS = '[[account]]\nname = "A"\nterminals = [1]\nsteps = 2000\n'


def blocks() -> dict[str, list[str]]:
    """The lines of the routine F, from each label to the next."""
    found: dict[str, list[str]] = {}
    for line in test_coming.CALLED["F"]:
        label = re.match(NAME, line)
        if label:
            found[label[0]] = []
            last = found[label[0]]
        last.append(line)
    return found


def led_to(text: str, known: dict[str, list[str]]) -> list[str]:
    """The lines that a text leads to, in their order."""
    def named(one: str) -> set[str]:
        forms = (rf"({NAME})\^F", rf"\$\$({NAME})", rf"[DG](?::[^ ]*)? ({NAME})", rf"\b({NAME})\(")
        return {name for form in forms for name in re.findall(form, one)} & known.keys()
    wanted: set[str] = set()
    ahead = named(text)
    while ahead:
        name = ahead.pop()
        wanted.add(name)
        ahead |= named(" ".join(known[name])) - wanted
    return [line for name, lines in known.items() if name in wanted for line in lines]


def answer(lines: list[str], text: str) -> tuple[str, str]:
    """What the second interpreter answers, over these lines of the routine."""
    world = World(SETTINGS, COMING)
    for number, line in enumerate(lines, 1):
        assert world.line(1, f'S ^ROUTINE("F",{number})={test_coming.quoted(line)}') == ("", "")
    return deep(lambda: world.line(1, text))


def codes(text: str) -> str:
    escaped = text.replace("\\", "\\\\").replace('"', '\\"')
    return f'codes "{escaped}"' if text else "[]"


def code_name(code: str) -> str:
    return code if code[0] == "M" else "Z" + code[1:].lower()


def main(chosen: str, name: str, *parts: str) -> None:
    known, cases, refusals = blocks(), [], {"List"}
    for text in getattr(test_coming, chosen):
        if LEFT_OUT.search(text) or any(part in text for part in parts):
            continue
        lines = led_to(text, known)
        out, code = answer(lines, text)
        if "\xff" in out:
            continue
        refusals |= {code_name(code)} if code else set()
        reply = f"failed ({codes(out)}) {code_name(code)}" if code else f"done ({codes(out)})"
        routine = " ∷ ".join([*map(codes, lines), "[]"])
        number = len(cases)
        cases.append(f'case_{number} : WithEachIn 1 (codes "F") ({routine}) (({codes(text)}, {reply}) ∷ [])\nunfolding runs\n'
                     f"case_{number} = λ g h. at_case _ refl (simp (running, asked g _ _ h)) no_more\n")
    head = (f"-- SPDX-License-Identifier: Apache-2.0\n-- {chosen} of tests/test_coming.py\nuse Rattle.mmeaning.proofs.MeaningWords.{{{', '.join(sorted(refusals))}}}\n"
            "use Rattle.mmeaning.proofs.Running.{[], ◌∷◌, refl, codes, done, failed, Text, asked, WithEachIn, at_case, no_more, runs, running}\n")
    (HERE / f"crates/mmeaning/proofs/{name}.antt").write_text("\n".join([head, *cases]), encoding="utf-8")
    print(len(cases), "cases")


if __name__ == "__main__":
    main(*sys.argv[1:])
