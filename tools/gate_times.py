#!/usr/bin/env python3
# SPDX-License-Identifier: Apache-2.0
"""Runs the gate, `rt ci`, hands its output on, and tells before its last line where the processor time went: a table by crate,
in seconds, of its proof, of proving its tests, and of trying its edits of must-fail/ (with their count).

    tools/gate_times.py               runs the gate: tools/chain.py first, if the kit keeps what that passes, and then `rt ci`, which takes it over
    tools/gate_times.py --plain       runs `rt ci` alone
    tools/gate_times.py --anew        runs `rt ci` alone, and has it prove and try all, also what it passed earlier on this machine; a kit whose
                                      `rt ci` knows no `--anew` keeps nothing and always does
    tools/gate_times.py --write       puts the table of the run into docs/PERFORMANCE.md too
    tools/gate_times.py --change REV  runs nothing: what changed in that page's table since the revision, as `origin/main`; and what the crates took in both
                                      whose sources did not change, since a second differs from run to run: the
                                      revision's page has to be of a run over the revision's sources

The times are read off the processes below the gate five times a second, so of each process up to a fifth of a second is missed."""
import argparse
import os
import re
import subprocess
import sys
import time

import chain
import gate_libraries
from processes import Watch
from sources import sources_digest

TOP = os.path.realpath(os.path.join(os.path.dirname(os.path.abspath(__file__)), ".."))
PAGE = os.path.join(TOP, "docs", "PERFORMANCE.md")
PARTS = ("proof", "tests", "edits")


def table(watch, seconds):
    """The table, with the most costly crates first."""
    spent, other = watch.spent()
    for parts in spent.values():
        parts["edits"] += parts.pop("seed")
    lines = ["| Crate | proof | tests | edits |", "|---|---|---|---|"]
    for crate, parts in sorted(spent.items(), key=lambda it: -sum(it[1].values())):
        folder = os.path.join(TOP, "crates", crate, "must-fail")
        count = len(os.listdir(folder)) if os.path.isdir(folder) else 0
        cells = [f"{parts['proof']:.0f}", f"{parts['tests']:.0f}" if parts["tests"] else "", f"{parts['edits']:.0f} ({count})" if count else ""]
        lines.append(f"| `{crate}` | " + " | ".join(cells) + " |")
    sums = [sum(parts[part] for parts in spent.values()) for part in PARTS]
    edits = sum(len(os.listdir(folder)) for crate in spent for folder in [os.path.join(TOP, "crates", crate, "must-fail")] if os.path.isdir(folder))
    lines.append("| together | " + " | ".join(f"{it:.0f}" for it in sums) + f" ({edits}) |")
    minutes = (sum(sums) + other) / 60
    lines.append("")
    lines.append(f"{seconds / 60:.0f} minutes by the clock on {len(os.sched_getaffinity(0))} processors, {minutes:.0f} processor minutes, {other / 60:.0f} of "
                 "them compiling and running.")
    return "\n".join(lines) + "\n"


BEGIN, END = "<!-- gate_times.py -->\n", "<!-- end -->\n"
ROW = re.compile(r"^\| `?(\w+)`? \| (\d*) \| (\d*) \| (\d*)(?: \((\d+)\))? \|$", re.MULTILINE)


def page_now():
    with open(PAGE, encoding="utf-8") as file:
        return file.read()


def seconds_in(page):
    """Of each crate in the page's table, and of all together, the seconds of its proof, its tests and its edits, and how many edits there are."""
    rows = page.partition(BEGIN)[2].partition(END)[0]
    return {found[1]: [int(it or 0) for it in found.groups()[1:]] for found in ROW.finditer(rows)}


def print_change(revision):
    """Prints what changed in the table since a revision, in processor seconds, the largest change first."""
    path = os.path.relpath(PAGE, TOP)
    shown = subprocess.run(["git", "show", f"{revision}:{path}"], cwd=TOP, capture_output=True, text=True)
    if shown.returncode:
        sys.exit(f"gate_times: {shown.stderr.strip()}")
    before, now = seconds_in(shown.stdout), seconds_in(page_now())
    rows = [(name, *[it.get(name, [0] * 4) for it in (before, now)]) for name in {*before, *now}]
    print("| Crate | seconds before | now | change | edits before | now |\n|---|---|---|---|---|---|")
    for name, old, new in sorted(rows, key=lambda row: (row[0] == "together", -abs(sum(row[2][:3]) - sum(row[1][:3])))):
        told = [sum(it[:3]) for it in (old, new)]
        if old != new:
            print(f"| {name} | {told[0]} | {told[1]} | {told[1] - told[0]:+} | {old[3]} | {new[3]} |")
    print_scale(revision, before, now)


def print_scale(revision, before, now):
    """Prints what the crates took before and now that have the sources of the revision, as has all that they depend on; and all crates by that."""
    same = [name for name in before if name in now and name != "together" and is_same(revision, name)]
    old, new = (sum(sum(it[name][:3]) for name in same) for it in (before, now))
    if new:
        told = sum(now["together"][:3]) * old / new
        print(f"\nAs at {revision}, with all below: {', '.join(same)}, {old} seconds before and {new} now. By that all crates take {told:.0f} of the seconds "
              "before.")


def is_same(revision, name):
    """Whether no source of the crate, nor of those that it depends on, changed since the revision."""
    with open(os.path.join(TOP, "crates.txt"), encoding="utf-8") as file:
        below = {line.partition(":")[0]: line.partition(":")[2].split() for line in file if not line.startswith("#")}
    paths = [f"crates/{it}/{part}" for it in [name, *below.get(name, [])] for part in ("src", "specs", "proofs")]
    return not subprocess.run(["git", "diff", "--quiet", revision, "--", *paths], cwd=TOP).returncode


def write_page(text):
    page, begin, end = page_now(), BEGIN, END
    made = re.sub(re.escape(begin) + ".*?" + re.escape(end), lambda _: begin + text + end, page, flags=re.S)
    if begin not in page:
        sys.exit("gate_times: docs/PERFORMANCE.md has no place for the table")
    with open(PAGE, "w", encoding="utf-8") as file:
        file.write(made)


def gate_words(anew):
    """The words that run the gate: with `--anew` if that is asked for and the kit has it."""
    if not anew:
        return ["rt", "ci"]
    told = subprocess.run(["rt", "help"], stdout=subprocess.PIPE, stderr=subprocess.STDOUT, text=True, errors="replace").stdout
    return ["rt", "ci", *(["--anew"] if "--anew" in told else [])]


def asked():
    """What the words ask for; words that it does not know end it."""
    parser = argparse.ArgumentParser(description=__doc__, formatter_class=argparse.RawDescriptionHelpFormatter)
    parser.add_argument("--plain", action="store_true", help="run `rt ci` alone")
    parser.add_argument("--anew", action="store_true", help="have `rt ci` prove and try all")
    parser.add_argument("--write", action="store_true", help="put the table into docs/PERFORMANCE.md")
    parser.add_argument("--change", metavar="REV", help="print what changed in that table since the revision")
    return parser.parse_args()


def main():
    words = asked()
    if words.change:
        print_change(words.change)
        return 0
    start, watch, last = time.monotonic(), Watch(os.getpid()), ""
    watch.start()
    digest, keeps = sources_digest(), chain.is_kept()
    if not (words.anew or words.plain) and keeps:
        # the verdict is that of `rt ci`, also on what fails here
        subprocess.run([sys.executable, os.path.join(TOP, "tools", "chain.py"), "--edits"], cwd=TOP, stdin=subprocess.DEVNULL)
    with subprocess.Popen(gate_words(words.anew), cwd=TOP, stdout=subprocess.PIPE, stderr=subprocess.STDOUT, text=True, errors="replace") as gate:
        for line in gate.stdout:
            print(last, end="", flush=True)
            last = line
    watch.end()
    if not (gate.returncode or keeps):
        gate_libraries.note(digest)
    text = table(watch, time.monotonic() - start)
    print(text, end="")
    if words.write:
        write_page(text)
    print(last, end="", flush=True)
    return gate.returncode


sys.exit(main())
