#!/usr/bin/env python3
# SPDX-License-Identifier: Apache-2.0
"""Makes the Debian package: the released programs, the clients, the front, man pages, completion, units and documents.

    python3 packaging/make_deb.py [--to FOLDER]

writes mserve_VERSION_amd64.deb into the folder (packaging/out), and prints its path. The same tree gives the same bytes. It needs dpkg-deb, and
no privileges. Status 1 if the release does not fit the sources or a tool is missing."""
from __future__ import annotations

import argparse
import gzip
import hashlib
import lzma
import os
import re
import shutil
import subprocess
import sys
import tempfile
from email.utils import format_datetime
from datetime import UTC, datetime
from pathlib import Path

TOP = Path(__file__).resolve().parent.parent
PARTS = TOP / "packaging" / "deb"
MAINTAINER = "Relumavosh maintainers <maintainers@users.noreply.relumavosh.example>"
SHARE = "usr/share/mserve"
DOC = "usr/share/doc/mserve"
# The programs, and where each is: mserve has a script before it.
PROGRAMS = {"mserve": "usr/lib/mserve/mserve", "mislands": "usr/bin/mislands"}
# The commands that are scripts, and the folder of each.
COMMANDS = {"mshell": "clients", "mroutine": "clients", "mglobal": "clients", "misland": "clients", "msettings": "clients", "mfront": "front",
            "mjournal": "front", "mbackup": "front", "mgate": "front"}
# Commands that have another name here: one without the program's would say too little.
NAMES = {"msettings": "mserve-settings"}
# Documents for users and operators, and those that these lead to; the others are for those who change it.
DOCUMENTS = ("ASVS", "FINDINGS", "FORMATS", "GLOSSARY", "GUIDE", "INSTALL", "ISOLATION", "LANGUAGE", "OPERATING", "PERFORMANCE", "PROOFS", "TEXT")
CONTROL = """Package: mserve
Version: {version}
Architecture: amd64
Maintainer: {maintainer}
Installed-Size: {size}
Depends: libc6 (>= 2.34), python3 (>= 3.11), python3-aiohttp (>= 3.8), python3-argon2 (>= 21), python3-crc32c, systemd (>= 247)
Recommends: curl, openssl, python3-prompt-toolkit, python3-rich
Suggests: python3-psycopg, postgresql
Section: database
Priority: optional
Description: shared M (MUMPS) server with isolated accounts
 One server for the M routines and globals of several customers. That no
 account learns from its replies what one without a tie to it does is proved
 for every interleaving of lines, over a store in memory, and over one in a
 file as long as its disk returns what was written.
 .
 With it come a front that signs users on and has a page for browsers, a shell,
 and commands for routines as files, for globals in and out, for the front's
 journal, for snapshots, and for many machines.
"""


class NotMade(Exception):
    """The package cannot be made; the text says why, and what to do."""


def version() -> str:
    """The version of the tree."""
    return (TOP / "VERSION").read_text(encoding="ascii").strip()


def made_at() -> int:
    """The time that all files have: the day of this version in CHANGELOG.md."""
    found = re.search(rf"^## {re.escape(version())}, (\d{{4}}-\d\d-\d\d)$", (TOP / "CHANGELOG.md").read_text(encoding="utf-8"), re.MULTILINE)
    if found is None:
        raise NotMade(f"CHANGELOG.md has no heading '## {version()}, YYYY-MM-DD'")
    return int(datetime.fromisoformat(found[1]).replace(tzinfo=UTC).timestamp())


def release_record() -> dict[str, str]:
    """What release/record says."""
    return dict(line.split(" ", 1) for line in (TOP / "release" / "record").read_text(encoding="utf-8").splitlines())


def programs() -> dict[str, bytes]:
    """The released programs, which are those that release/record names."""
    record = release_record()
    if record["version"] != version():
        raise NotMade(f"the release is of version {record['version']}, and VERSION says {version()}: tools/release.py make")
    found = {}
    for name in PROGRAMS:
        found[name] = lzma.decompress((TOP / "release" / f"{name}.xz").read_bytes())
        if hashlib.sha256(found[name]).hexdigest() != record.get(name):
            raise NotMade(f"release/{name}.xz is not the program that release/record names: tools/release.py make")
    return found


def put(root: Path, place: str, data: bytes, mode: int = 0o644) -> None:
    """Writes a file of the package."""
    path = root / place
    path.parent.mkdir(parents=True, exist_ok=True)
    path.write_bytes(data)
    path.chmod(mode)


def put_zipped(root: Path, place: str, data: bytes) -> None:
    """Writes a file compressed, as Debian wants man pages and lists of changes."""
    put(root, f"{place}.gz", gzip.compress(data, 9, mtime=0))


def copied(root: Path, source: Path, place: str) -> None:
    """Copies the files of a folder, without what is made and without tests."""
    for path in sorted(source.rglob("*")):
        if path.is_file() and not {"__pycache__", "tests"} & set(path.relative_to(source).parts):
            put(root, f"{place}/{path.relative_to(source)}", path.read_bytes())


def put_commands(root: Path) -> None:
    """The programs, and the scripts with their modules: each is a link to where its modules are."""
    for name, data in programs().items():
        put(root, PROGRAMS[name], data, 0o755)
    record = release_record()
    told = f"mserve {version()}\nsources {record['sources']}\nprogram the released program, proved and built by {record['kit']}\n"
    put(root, f"{SHARE}/version", told.encode())
    put(root, f"{SHARE}/help.sh", (TOP / "tools" / "help.sh").read_bytes())
    put(root, "usr/bin/mserve", (PARTS / "mserve").read_bytes(), 0o755)
    copied(root, TOP / "clients" / "mserve_client", f"{SHARE}/clients/mserve_client")
    copied(root, TOP / "front" / "mserve_front", f"{SHARE}/front/mserve_front")
    copied(root, TOP / "front" / "page", f"{SHARE}/front/page")
    copied(root, TOP / "front" / "admin", f"{SHARE}/front/admin")
    # The front makes the page of the language from it. What is in DOC may be left out of a machine.
    put(root, f"{SHARE}/docs/LANGUAGE.md", (TOP / "docs" / "LANGUAGE.md").read_bytes())
    copied(root, TOP / "packaging" / "monitoring", f"{SHARE}/monitoring")
    for name, folder in COMMANDS.items():
        text = (TOP / folder / name).read_bytes()
        # The interpreter of Debian's packages, whatever comes first on the path.
        put(root, f"{SHARE}/{folder}/{name}", text.replace(b"#!/usr/bin/env python3\n", b"#!/usr/bin/python3\n", 1), 0o755)
        (root / "usr/bin" / NAMES.get(name, name)).symlink_to(f"../share/mserve/{folder}/{name}")


def put_documents(root: Path) -> None:
    """Man pages, completion, documents and examples."""
    pages = [*sorted((TOP / "docs").glob("*.1")), *sorted((TOP / "clients" / "man").glob("*.1")), *sorted((TOP / "front" / "man").glob("*.1"))]
    for page in pages:
        put_zipped(root, f"usr/share/man/man1/{NAMES.get(page.stem, page.stem)}.1", page.read_bytes())
    put(root, "usr/share/bash-completion/completions/mserve", (TOP / "packaging" / "mserve.bash").read_bytes())
    for name in ("README.md", "SECURITY.md", "CHANGELOG.md"):
        put(root, f"{DOC}/{name}", (TOP / name).read_bytes())
    for name in DOCUMENTS:
        put(root, f"{DOC}/docs/{name}.md", (TOP / "docs" / f"{name}.md").read_bytes())
    for folder in ("clients", "front"):
        put(root, f"{DOC}/{folder}/README.md", (TOP / folder / "README.md").read_bytes())
    copied(root, TOP / "examples", f"{DOC}/examples")
    put(root, f"{DOC}/copyright", (PARTS / "copyright").read_bytes())
    date = format_datetime(datetime.fromtimestamp(made_at(), UTC))
    text = f"mserve ({version()}) stable; urgency=medium\n\n  * CHANGELOG.md says what changed.\n\n -- {MAINTAINER}  {date}\n"
    put_zipped(root, f"{DOC}/changelog", text.encode())


def put_system(root: Path) -> None:
    """Units, settings, the user and the folders of the services."""
    for name in ("mserve.service", "mfront.service", "mgate.service", "mserve-backup@.service", "mserve-backup@.timer"):
        put(root, f"lib/systemd/system/{name}", (TOP / "packaging" / name).read_bytes())
    for source, place in {"front.toml": "etc/mserve/front.toml", "settings.toml": "etc/mserve/settings.toml", "logrotate": "etc/logrotate.d/mserve",
                          "sysusers.conf": "usr/lib/sysusers.d/mserve.conf", "tmpfiles.conf": "usr/lib/tmpfiles.d/mserve.conf"}.items():
        put(root, place, (PARTS / source).read_bytes())


def put_control(root: Path) -> None:
    """What dpkg reads: the package's description, its scripts, its settings and the sums of its files."""
    files = sorted(path.relative_to(root) for path in root.rglob("*") if path.is_file() and not path.is_symlink())
    size = sum((root / path).stat().st_size + 1023 & ~1023 for path in files) // 1024
    sums = "".join(f"{hashlib.md5((root / path).read_bytes()).hexdigest()}  {path}\n" for path in files if path.parts[0] != "etc")
    put(root, "DEBIAN/control", CONTROL.format(version=version(), maintainer=MAINTAINER, size=size).encode())
    put(root, "DEBIAN/conffiles", "".join(f"/{path}\n" for path in files if path.parts[0] == "etc").encode())
    put(root, "DEBIAN/md5sums", sums.encode())
    for name in ("postinst", "prerm", "postrm"):
        put(root, f"DEBIAN/{name}", (PARTS / name).read_bytes(), 0o755)


def make(folder: Path) -> Path:
    """Makes the package in a folder, and gives its path."""
    if shutil.which("dpkg-deb") is None:
        raise NotMade("dpkg-deb is missing: apt-get install dpkg")
    folder.mkdir(parents=True, exist_ok=True)
    target = folder / f"mserve_{version()}_amd64.deb"
    with tempfile.TemporaryDirectory() as name:
        root = Path(name) / "root"
        root.mkdir()
        before = os.umask(0o022)
        try:
            for step in (put_commands, put_documents, put_system, put_control):
                step(root)
        finally:
            os.umask(before)
        environment = {**os.environ, "SOURCE_DATE_EPOCH": str(made_at())}
        words = ["dpkg-deb", "--root-owner-group", "-Zxz", "--build", root, target]
        done = subprocess.run(words, env=environment, capture_output=True, text=True)
        if done.returncode:
            raise NotMade(f"dpkg-deb: {done.stderr.strip()}")
    return target


def main() -> int:
    """The command: its status."""
    reader = argparse.ArgumentParser(prog="make_deb", description="Makes the Debian package of this tree.")
    reader.add_argument("--to", type=Path, default=TOP / "packaging" / "out", metavar="FOLDER", help="where the package goes (default packaging/out)")
    try:
        print(make(reader.parse_args().to))
    except (NotMade, OSError) as error:
        print(f"make_deb: {error}", file=sys.stderr)
        return 1
    return 0


if __name__ == "__main__":
    sys.exit(main())
