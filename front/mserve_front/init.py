# SPDX-License-Identifier: Apache-2.0
"""`mgate init`: the islands of one machine, made from a settings file and a store, and the machine's settings from those of a front."""
from __future__ import annotations

import json
import shutil
import sqlite3
from collections.abc import Iterator
from pathlib import Path

from mserve_client import islands

from .folders import give_to_owner, sync_folder, write_whole
from .islands import Home
from .placement import BadPlacement, LocalPlacement
from .rows import take_log
from .settings import BadSettings, read_settings, read_toml


def make_islands(home: Home, settings: Path, store: Path) -> Iterator[str]:
    """Splits settings and a store by islands into the folder of a machine that is alone, and places these there; gives a line for each. The folder is not
    there before, or has no islands. Raises `BadPlacement`, `ClientError` or OSError; then nothing is placed."""
    placement = LocalPlacement(home.folder, home.machine)
    placement.make()
    if placement.islands():
        raise BadPlacement(f"{home.folder}: there are islands already: mgate place puts another one there")
    try:
        # A server that was ended by a signal, as a front's is, leaves it beside the file.
        take_log(store)
    except sqlite3.Error as error:
        raise BadPlacement(f"{store}: {error}: no server may have it, and it has to be a store") from error
    made = home.folder / ".init"
    shutil.rmtree(made, ignore_errors=True)
    parts, strangers = islands.split(islands.Pair(settings, store), made)
    texts = {}
    for part in parts:
        folder = home.folder / part.name
        if folder.exists():
            raise BadPlacement(f"{folder}: is there already: move it away first")
        (made / part.name / islands.STORE).rename(made / part.name / "store")
        texts[part.name] = (made / part.name / islands.SETTINGS).read_text(encoding="utf-8")
    for part in parts:
        (made / part.name).chmod(0o700)
        (made / part.name).rename(home.folder / part.name)
        give_to_owner(home.folder / part.name)
    if strangers:
        (made / islands.STRANGERS).rename(home.folder / islands.STRANGERS)
        give_to_owner(home.folder / islands.STRANGERS)
    sync_folder(home.folder)
    placement.put_all(texts, home.machine.name)
    shutil.rmtree(made)
    for part in parts:
        nodes = sum(digest.nodes for digest in part.digests.values())
        yield f"island {part.name}: {' '.join(part.settings.names)}: {nodes} nodes"
    if strangers:
        yield f"{home.folder / islands.STRANGERS}: globals of accounts that the settings do not name: {' '.join(strangers)}"


def write_machine(config: Path, front: Path, folder: Path) -> None:
    """Writes the settings of a machine that is alone, by those of a front, which the same may read. Raises `BadSettings`."""
    found = read_settings(front, False)
    place = found.listen
    if not found.tls or place.lines_port is None:
        raise BadSettings(f"{front}: listen: a gate serves over TLS, and lines too: give listen.certificate, listen.key and listen.lines_port")
    tables: dict[str, dict[str, object]] = {
        "machine": {"name": "one", "folder": str(folder.absolute()), "users": str(found.users), "program": str(found.program)},
        "listen": {"host": place.host, "port": place.port, "lines_port": place.lines_port, "certificate": str(place.certificate), "key": str(place.key),
                   "origins": list(place.origins)},
        "audit": {"texts": found.texts}, "limits": read_toml(front).get("limits", {})}
    if found.in_utf_8:
        tables["machine"]["text"] = "utf-8"
    if found.admin is not None:
        tables["admin"] = {"socket": str(found.admin)}
    text = "\n".join(f"[{name}]\n" + "".join(f"{key} = {json.dumps(value)}\n" for key, value in keys.items()) for name, keys in tables.items())
    write_whole(config, text.encode())
    config.chmod(front.stat().st_mode & 0o777)
