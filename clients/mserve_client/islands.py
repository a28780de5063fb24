# SPDX-License-Identifier: Apache-2.0
"""The islands of settings; settings and store files split by island, and joined again. The files that are split or joined stay as they are.

An island is a set of accounts that no grant ties to others: the least one that has an account. Its accounts are answered the same if
they are kept on a machine of their own (docs/ISOLATION.md). Which islands there are is for the proved program mislands to say: the one that the
variable MISLANDS names, else that of this clone, else the installed one.

A part is a folder with `settings.toml` and `store.db`. A folder of parts has one for each island, named after its first account, and
`strangers.db` if the store has globals of accounts that the settings do not name."""
from __future__ import annotations

import os
import shutil
import subprocess
import tempfile
from collections.abc import Iterable, Iterator
from concurrent.futures import ThreadPoolExecutor
from contextlib import contextmanager
from dataclasses import dataclass
from pathlib import Path

from . import settings_file
from .settings_file import Settings
from .store_file import BadStore, Digest, Store
from .wire import ClientError

SETTINGS, STORE, STRANGERS = "settings.toml", "store.db", "strangers.db"
# The program that prints islands, and the variable that names another one.
PROGRAM, VARIABLE = "mislands", "MISLANDS"
# No account has such a name.
REST = "the-rest"
# How many of the things that others made a message names.
NAMED = 5


class NoIslands(ClientError):
    """The islands cannot be had; the text says why."""


class NotSplit(ClientError):
    """What was asked for cannot be done; nothing was."""


@dataclass(frozen=True, slots=True)
class Part:
    """A part of the settings with its name; its accounts' nodes, by the account, as far as these were looked at."""

    name: str
    settings: Settings
    digests: dict[str, Digest]


@dataclass(frozen=True, slots=True)
class Pair:
    """A settings file and a store file that go together."""

    settings: Path
    store: Path


def program() -> str:
    """The program that prints islands."""
    here = Path(__file__).resolve().parents[2] / PROGRAM
    return os.environ.get(VARIABLE) or (str(here) if here.is_file() else PROGRAM)


def islands_of(document: bytes) -> list[list[str]]:
    """The islands of a document of settings, in the order of their first accounts, and the accounts of each in their order, by the proved program.
    NoIslands if that cannot be had; what it tells then goes to the standard error."""
    path = program()
    try:
        done = subprocess.run([path], input=document, stdout=subprocess.PIPE)
    except OSError as error:
        raise NoIslands(f"{path}, which computes the islands, cannot be run: {error.strerror}. The variable {VARIABLE} names another one") from error
    if done.returncode:
        raise NoIslands(f"{path}, which computes the islands, ended with status {done.returncode}")
    return [line.split() for line in done.stdout.decode("ascii", "replace").splitlines()]


def read(path: Path) -> tuple[Settings, list[list[str]]]:
    """The settings of a file, and their islands. BadSettings if mserve refuses them, NoIslands if the islands cannot be had."""
    document = path.read_bytes()
    settings = settings_file.parsed(str(path), document)
    found = islands_of(document)
    if sorted(name for island in found for name in island) != sorted(settings.names):
        raise NoIslands(f"{program()}, which computes the islands, printed other accounts than those of {path}")
    return settings, found


def parts_of(settings: Settings, islands: list[list[str]], apart: Iterable[str] = ()) -> list[Part]:
    """Each island; or the islands of the accounts that are named, and the rest of the accounts."""
    wanted = set(apart)
    if unknown := wanted - set(settings.names):
        raise NotSplit(f"no account of the settings has the name {sorted(unknown)[0]}")
    chosen = {island[0]: island for island in islands if not wanted or wanted & set(island)}
    if rest := [name for island in islands if island[0] not in chosen for name in island]:
        chosen[REST] = rest
    return [Part(name, part, {}) for name, part in zip(chosen, settings.parts(chosen.values()))]


def looked_at(settings: Settings, parts: list[Part], store: Store) -> dict[str, Digest]:
    """Tells the parts what tells their accounts' nodes; gives what tells the strangers' nodes."""
    digests = {name: store.digest(name) for name in store.accounts()}
    for part in parts:
        part.digests.update({name: digests[name] for name in part.settings.names if name in digests})
    known = set(settings.names)
    return {name: digest for name, digest in digests.items() if name not in known}


def split(source: Pair, folder: Path, apart: Iterable[str] = ()) -> tuple[list[Part], dict[str, Digest]]:
    """Makes a folder of parts; gives the parts and what tells the strangers' nodes. The folder is there whole or not at all."""
    settings, found = read(source.settings)
    parts = parts_of(settings, found, apart)
    # A part is compared while the next one is written.
    with alone(source.store) as store, made(folder) as place, ThreadPoolExecutor(os.cpu_count()) as beside:
        strangers = looked_at(settings, parts, store)
        compared = []
        for part in parts:
            (place / part.name).mkdir()
            settings_file.write(place / part.name / SETTINGS, part.settings)
            store.give(part.digests, str(place / part.name / STORE))
            compared.append(beside.submit(compare, place / part.name / STORE, part.digests))
        if strangers:
            store.give(strangers, str(place / STRANGERS))
            compared.append(beside.submit(compare, place / STRANGERS, strangers))
        for done in compared:
            done.result()
    return parts, strangers


def compare(path: Path, wanted: dict[str, Digest]) -> None:
    """BadStore if the store has not exactly these accounts' nodes."""
    with Store(str(path)) as store:
        found = {name: store.digest(name) for name in store.accounts()}
    if found != wanted:
        raise BadStore(f"{path}: what was written is not what was read; is the disk good?")


def pairs_of(folder: Path) -> tuple[list[Pair], list[Path]]:
    """The parts in a folder, or the folder itself as one; and the stores of strangers."""
    strangers = [folder / STRANGERS] if (folder / STRANGERS).exists() else []
    if (folder / SETTINGS).exists():
        return [Pair(folder / SETTINGS, folder / STORE)], strangers
    found = [Pair(place / SETTINGS, place / STORE) for place in sorted(folder.iterdir()) if (place / SETTINGS).exists()]
    if not found:
        raise NotSplit(f"{folder}: this is no part: it has no {SETTINGS}, nor has a folder in it")
    return found, strangers


def join(pairs: list[Pair], strangers: list[Path], folder: Path) -> Part:
    """Makes a part of several, the strangers' globals with it; gives it. The folder is there whole or not at all."""
    settings = [settings_file.read(pair.settings) for pair in pairs]
    whole = Settings(tuple(account for each in settings for account in each.accounts), tuple(grant for each in settings for grant in each.grants))
    settings_file.check("the parts together", whole)
    part = Part(folder.name, whole, {})
    with made(folder) as place:
        settings_file.write(place / SETTINGS, whole)
        Store(str(place / STORE), make=True).close()
        for path in [*(pair.store for pair in pairs), *strangers]:
            with alone(path) as store:
                names = store.accounts()
                if twice := sorted(part.digests.keys() & set(names)):
                    raise NotSplit(f"{path}: {twice[0]} has globals in another part too")
                part.digests.update({name: store.digest(name) for name in names})
                store.give(names, str(place / STORE))
        compare(place / STORE, part.digests)
    return part


@contextmanager
def alone(path: Path) -> Iterator[Store]:
    """A store whose nodes go to other files. NotSplit if its database has what others made: no part would have that, so it would be lost unseen."""
    with Store(str(path)) as store:
        if others := store.others():
            named = ", ".join(others[:NAMED]) + (f" and {len(others) - NAMED} more" if len(others) > NAMED else "")
            raise NotSplit(f"{path}: others have made {named} in it, which no part would have: copy the file, drop that from the copy by sqlite3, and name "
                           "the copy; nothing was made")
        yield store


@contextmanager
def made(folder: Path) -> Iterator[Path]:
    """A folder that is made beside its place, and is there once the block has ended."""
    if folder.exists():
        raise NotSplit(f"{folder}: it is there already: name a folder that is not")
    place = Path(tempfile.mkdtemp(prefix=folder.name + ".", suffix=".part", dir=folder.absolute().parent))
    try:
        yield place
        os.rename(place, folder)
    except BaseException:
        shutil.rmtree(place, ignore_errors=True)
        raise
