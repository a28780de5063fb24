# SPDX-License-Identifier: Apache-2.0
"""The command `mbackup`: snapshots of a store while users work, and back."""
from __future__ import annotations

import argparse
import contextlib
import hashlib
import json
import shutil
import tempfile
import time
from collections.abc import Callable
from dataclasses import asdict
from pathlib import Path

from . import ending, journal_command
from .control import ControlError, asked
from .ending import DEFAULT, FAILED, FOUND, USAGE
from .figures import VERIFIED
from .folders import sync_folder, write_whole
from .journal import LogFault
from .nightly import fronts_of, night
from .settings import BadSettings, Table, journal_settings, read_toml
from .snapshots import SCRATCH, BadSnapshot, Manifest, accounts_of, check, differ, finish, put_back, read_manifest, snapshots_of, tidied

NAME = "mbackup"
STATUSES_OF = {BadSettings: USAGE, BadSnapshot: FOUND, ControlError: FAILED, LogFault: FAILED}
STATUSES = "Status: 0 all went well; 1 a snapshot or a store is not what it is to be; 2 the words or the settings are wrong; 3 it cannot be done; " \
           "130 an interrupt."


def words() -> argparse.ArgumentParser:
    """The reader of the command's words."""
    parser = argparse.ArgumentParser(prog=NAME, epilog=STATUSES, description="Makes snapshots of the store of a front that keeps a journal, while users "
                                     "work. A snapshot is a folder, named by the number of the last line that it has.")
    commands = parser.add_subparsers(title="commands", metavar="COMMAND", required=True)

    def add(name: str, act: Callable[[argparse.Namespace], int], about: str, more: str = "") -> argparse.ArgumentParser:
        one = commands.add_parser(name, epilog=STATUSES, help=about, description=f"{about[0].upper()}{about[1:]}. {more}")
        one.set_defaults(act=act)
        return one
    one = add("take", take, "make a snapshot", "No line is sent while what changed is copied; what is large is copied beside the users' work. The copy is "
              "opened by SQLite and checked, and what each account holds is noted by its digest. Its path is printed.")
    one.add_argument("folder", type=Path, metavar="FOLDER", help="where snapshots are; the front's user has to be able to write there")
    one.add_argument("--config", type=Path, default=Path(DEFAULT), metavar="FILE", help=f"the settings of the front (default {DEFAULT})")
    one.add_argument("--end-sessions", action="store_true",
                     help="end all sessions between the same two lines, as a restart does: a snapshot is exact if no session is open")
    one.add_argument("--all", action="store_true", help="with --end-sessions: write all that the store holds into the journal there, so that a standby "
                     "whose store differs goes on from it")
    one = add("check", checked, "check a snapshot", "Its store has to be sound, and to hold what was noted.")
    one.add_argument("snapshot", type=Path, metavar="SNAPSHOT")
    one = add("verify", verified, "verify the latest snapshot of a folder by a replay", "The exact snapshot before it, or nothing if there is none, is put "
              "into a scratch store, and the journal is run from there to the line of the latest one: each reply is compared, and what each account holds "
              "then. It is noted beside the snapshots, for the front's figures.")
    one.add_argument("folder", type=Path, metavar="FOLDER")
    one.add_argument("--config", type=Path, default=Path(DEFAULT), metavar="FILE", help=f"the settings of the front (default {DEFAULT})")
    one.add_argument("--scratch", type=Path, metavar="FOLDER", help="where the scratch store is made (default: the folder of snapshots)")
    one = add("nightly", nightly, "take a snapshot, and verify it, of a front or of each island of a machine", "What a night does: an exact snapshot in the "
              "folder that the front's settings name (journal.backup), which is verified. One that fails holds no other up.")
    one.add_argument("--config", type=Path, default=Path(DEFAULT), metavar="FILE", help=f"the settings of the front, or of the machine (default {DEFAULT})")
    one.add_argument("--keep", type=int, metavar="DAYS", help="then remove what is older, of the journal and of the snapshots (default: nothing)")
    one = add("compare", compared, "compare a store that nobody has open with a snapshot", "As after mjournal replay up to the snapshot's line.")
    one.add_argument("snapshot", type=Path, metavar="SNAPSHOT")
    one.add_argument("store", type=Path, metavar="STORE")
    one = add("restore", restored, "put the store of a snapshot to a path where none is", "Beside it it is noted which line it stands at.")
    one.add_argument("snapshot", type=Path, metavar="SNAPSHOT")
    one.add_argument("store", type=Path, metavar="STORE")
    one = add("list", listed, "list the snapshots of a folder", "Each with its line, its time, its accounts, and whether it is exact.")
    one.add_argument("folder", type=Path, metavar="FOLDER")
    return parser


def take(options: argparse.Namespace) -> int:
    """Makes a snapshot."""
    tables = read_toml(options.config)
    users = Table(options.config, "users", tables.get("users", {})).needed_file("file")
    control = journal_settings(Table(options.config, "journal", tables.get("journal", {})), users.parent).control
    if options.all and not options.end_sessions:
        raise BadSettings("--all is for a snapshot at which all sessions end: add --end-sessions")
    tidies(options.folder)
    request = {"ask": "snapshot", "folder": str(options.folder.absolute()), "anew": options.end_sessions, "all": options.all}
    found = asked(control, request, None)
    part = Path(str(found["part"]))
    try:
        name = Manifest(int(found["journal"]), int(found["number"]), str(found["time"]), list(found["open"]), sequence=int(found.get("sequence", 0)))
        made = finish(part, name)
        target = options.folder / f"{made.number:012d}"
        _replaced(part, target)
    except BaseException:
        shutil.rmtree(part, ignore_errors=True)
        raise
    print(target)
    say(f"{told(made)}; no line was sent for {found['seconds']} s")
    return 0


def tidies(folder: Path) -> None:
    """Removes copies that were never finished, and says so."""
    with contextlib.suppress(OSError):
        for path in tidied(folder):
            say(f"{path}: a copy that a killed command left was removed")


def _replaced(part: Path, target: Path) -> None:
    """Gives a snapshot its name; one of the same line that is there makes room."""
    old = target.with_name(f".old-{target.name}")
    shutil.rmtree(old, ignore_errors=True)
    if target.exists():
        target.rename(old)
    part.rename(target)
    sync_folder(target.parent)
    shutil.rmtree(old, ignore_errors=True)


def told(manifest: Manifest) -> str:
    """A snapshot in words."""
    nodes = sum(account.nodes for account in manifest.accounts.values())
    exact = "exact" if manifest.exact else f"{len(manifest.open)} sessions were open"
    return f"line {manifest.number}, {manifest.time}, {len(manifest.accounts)} accounts, {nodes} nodes, {exact}"


def checked(options: argparse.Namespace) -> int:
    """Checks a snapshot."""
    print(f"{options.snapshot}: good: {told(check(options.snapshot))}")
    return 0


def verified(options: argparse.Namespace) -> int:
    """Verifies the latest snapshot by a replay."""
    tidies(options.scratch or options.folder)
    found = snapshots_of(options.folder)
    if not found:
        raise BadSnapshot(f"{options.folder}: there is no snapshot")
    latest = found[-1]
    manifest = check(latest)
    before = next((path for path in reversed(found[:-1]) if read_manifest(path).exact), None)
    note = {"line": manifest.number, "at": time.time(), "from": before.name if before else "", "holds": digest_of(manifest)}
    if verified_before(options.folder, note):
        # What came before it may have expired since.
        write_whole(options.folder / VERIFIED, json.dumps(note).encode() + b"\n")
        print(f"{latest}: good: nobody has worked since it was verified, and it holds the same: {told(manifest)}")
        return 0
    began = time.monotonic()
    with tempfile.TemporaryDirectory(prefix=SCRATCH, dir=options.scratch or options.folder) as scratch:
        store = Path(scratch) / "store"
        words = ["--config", str(options.config), "replay", "--store", str(store), "--to", str(latest.absolute())]
        status = journal_command.does([*words, *(["--from", str(before)] if before else [])])
        if status or not store.exists():
            raise BadSnapshot(f"{latest}: the journal up to line {manifest.number} could not be replayed from {before or 'its beginning'}: status {status}")
        differ(latest, manifest.accounts, accounts_of(store))
    write_whole(options.folder / VERIFIED, json.dumps(note).encode() + b"\n")
    print(f"{latest}: good: a replay from {before or 'the beginning of the journal'} holds the same, in {time.monotonic() - began:.1f} s: {told(manifest)}")
    return 0


def nightly(options: argparse.Namespace) -> int:
    """Does for each front what a night does; the highest status of all."""
    def of_one(given: argparse.Namespace) -> int:
        return night(given.config, options.keep, take, verified)
    worst = 0
    for name, config in fronts_of(options.config):
        status = ending.ended(NAME, argparse.Namespace(act=of_one, config=config), STATUSES_OF)
        if status and name:
            say(f"island {name}: status {status}")
        worst = max(worst, status)
    return worst


def digest_of(manifest: Manifest) -> str:
    """What tells a journal, and what all accounts held, from others."""
    return hashlib.sha256(json.dumps([manifest.journal, asdict(manifest)["accounts"]], sort_keys=True).encode()).hexdigest()


def verified_before(folder: Path, note: dict[str, object]) -> bool:
    """Whether a snapshot of the same line, which held the same, was verified."""
    try:
        found = json.loads((folder / VERIFIED).read_bytes())
        return bool(found["line"] == note["line"] and found["holds"] == note["holds"])
    except (OSError, ValueError, KeyError, TypeError):
        return False


def compared(options: argparse.Namespace) -> int:
    """Compares a store with a snapshot."""
    manifest = read_manifest(options.snapshot)
    if not options.store.exists():
        raise BadSnapshot(f"{options.store}: there is no such file")
    differ(options.store, manifest.accounts, accounts_of(options.store))
    print(f"{options.store}: each account holds what it does in {options.snapshot}")
    return 0


def restored(options: argparse.Namespace) -> int:
    """Puts a store back."""
    manifest = put_back(options.snapshot, options.store.absolute())
    print(f"{options.store}: {told(manifest)}")
    return 0


def listed(options: argparse.Namespace) -> int:
    """Lists snapshots."""
    for path in snapshots_of(options.folder):
        print(f"{path}: {told(read_manifest(path))}")
    return 0


def say(text: str) -> None:
    """Writes a line to the standard error."""
    ending.say(NAME, text)


def main() -> int:
    """The status of the command."""
    return ending.ended(NAME, words().parse_args(), STATUSES_OF)
