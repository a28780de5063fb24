# SPDX-License-Identifier: Apache-2.0
"""Machines for these tests: gates at addresses of the loopback, with certificates of an authority of their own, and one database."""
from __future__ import annotations

import asyncio
import json
import os
import ssl
import subprocess
import sys
import time
from collections import deque
from collections.abc import Mapping, Sequence
from pathlib import Path
from types import MappingProxyType

from front import FRONT, PASSWORD, Patience, Ran, Record, toml, tool, write_users
from running import PROGRAM, free_port

HOSTS = {"one": "127.0.0.2", "two": "127.0.0.3", "three": "127.0.0.4"}


def certificates(folder: Path) -> None:
    """An authority, and for each machine a certificate of it, and one for all users."""
    def openssl(*words: object) -> None:
        subprocess.run(["openssl", *map(str, words)], check=True, capture_output=True, cwd=folder)
    key = ("-newkey", "ec", "-pkeyopt", "ec_paramgen_curve:prime256v1", "-nodes")
    openssl("req", "-x509", *key, "-days", 2, "-subj", "/CN=authority", "-keyout", "authority.key", "-out", "authority.pem")
    for name in (*HOSTS, "users"):
        names = f"DNS:{name}" if name in HOSTS else ",".join(f"IP:{host}" for host in HOSTS.values())
        (folder / f"{name}.ext").write_text(f"subjectAltName={names}\n")
        openssl("req", *key, "-subj", f"/CN={name}", "-keyout", f"{name}.key", "-out", f"{name}.csr")
        openssl("x509", "-req", "-in", f"{name}.csr", "-CA", "authority.pem", "-CAkey", "authority.key", "-CAcreateserial", "-days", 2, "-extfile",
                f"{name}.ext", "-out", f"{name}.pem")


class Gate:
    """A machine's gate that runs."""

    # What its processes have in their environment besides.
    environment: Mapping[str, str] = MappingProxyType({})
    # The folder of its commands.
    front = FRONT

    def __init__(self, folder: Path, name: str, database: str, ports: dict[str, int], certificates: Path, environment: Mapping[str, str] | None = None,
                 front: Path = FRONT, **more: dict[str, object]) -> None:
        self.environment, self.front = environment or self.environment, front
        self.folder, self.name, self.host, self.ports = folder / name, name, HOSTS[name], ports
        self.folder.mkdir(exist_ok=True)
        self.authority = certificates / "authority.pem"
        tables: dict[str, dict[str, object]] = {
            "machine": {"name": name, "database": database, "folder": "islands", "users": "../islands/users.json", "program": PROGRAM},
            "listen": {"host": self.host, "port": ports["http"], "lines_port": ports["lines"], "certificate": str(certificates / "users.pem"),
                       "key": str(certificates / "users.key"),
                       "origins": [f"https://{host}:{ports['http']}" for host in HOSTS.values()]},
            "peers": {"port": ports["peers"], "certificate": str(certificates / f"{name}.pem"), "key": str(certificates / f"{name}.key"),
                      "authority": str(self.authority)}}
        for table, keys in more.items():
            tables[table] = {key: value for key, value in (tables[table] | keys).items() if value is not None}
        self.tables, self.config = tables, self.folder / "machine.toml"
        self.write()
        self.process = self._started()

    def _started(self) -> subprocess.Popen[bytes]:
        with (self.folder / "told").open("a") as told:
            before = self.told().count("serving at https")
            process = subprocess.Popen([sys.executable, self.front / "mgate", "--config", self.config], stdin=subprocess.DEVNULL, stderr=told,
                                       start_new_session=True, env=os.environ | self.environment)
        end = time.monotonic() + Patience.seconds
        while True:
            # This comes first: what it told before it ended counts.
            over = process.poll() is not None or time.monotonic() > end
            if self.told().count("serving at https") > before:
                return process
            if over:
                raise RuntimeError(self.told())
            time.sleep(0.02)

    def write(self) -> None:
        """Writes its settings."""
        self.config.write_text(toml(self.tables))

    def again(self) -> None:
        """Starts it again."""
        self.process = self._started()

    def told(self) -> str:
        """What it and its islands' fronts wrote to the standard error."""
        return (self.folder / "told").read_text()

    def stop(self) -> int:
        """Ends it in order."""
        if self.process.poll() is None:
            self.process.terminate()
        return self.process.wait(2 * Patience.seconds)

    def kill(self) -> None:
        """Ends it at once, and all that it has started with it."""
        self.process.kill()
        self.process.wait()

    def does(self, *words: object) -> Ran:
        """Runs mgate by its settings."""
        return tool("mgate", front=self.front)(*words, "--config", self.config)

    @property
    def context(self) -> ssl.SSLContext:
        """What its users trust."""
        return ssl.create_default_context(cafile=str(self.authority))

    @property
    def origin(self) -> str:
        """Where its users' browsers find it."""
        return f"https://{self.host}:{self.ports['http']}"


class Program:
    """A program of a user at the line port of a gate, or of others if that one is not there. It connects again where it has to."""

    def __init__(self, gate: Gate, name: str, others: Sequence[Gate] = ()) -> None:
        self.gate, self.name = gate, name
        self.record: Record = {}
        self._others = deque(others)
        self._reader: asyncio.StreamReader | None = None
        self._writer: asyncio.StreamWriter | None = None

    async def sign_on(self) -> Record:
        """The answer of the first line. Raises OSError if the gate is not there."""
        self._reader, self._writer = await asyncio.open_connection(self.gate.host, self.gate.ports["lines"], ssl=self.gate.context)
        self._writer.write(f"{self.name} {PASSWORD}\n".encode())
        self.record = json.loads(await self._whole_line() or b'{"error": "the connection ended"}')
        return self.record

    async def signed_on(self) -> None:
        """Signs on as soon as that can be, by the next gate if one is not there."""
        while True:
            try:
                if "error" not in await self.sign_on():
                    return
            except OSError:
                if not self._others:
                    raise
                self._others.append(self.gate)
                self.gate = self._others.popleft()
            self.close()
            await asyncio.sleep(0.1)

    async def _whole_line(self) -> bytes:
        """The next line; nothing if the connection ends before it has."""
        data = await self._reader.readline()
        return data if data.endswith(b"\n") else b""

    async def line(self, line: str) -> Record:
        """The record of a line. Raises OSError if the session ends before, with the reason if there is one."""
        self._writer.write(line.encode() + b"\n")
        while data := await self._whole_line():
            record = json.loads(data)
            if "event" not in record:
                return record
            if record["event"] == "signed-off":
                raise ConnectionResetError(record["why"])
        raise ConnectionResetError("no more")

    async def told(self, line: str) -> object:
        """The rest of a line's output, or its code."""
        record = await self.line(line)
        return record["code"] or record["rest"]

    def close(self) -> None:
        """Ends the connection."""
        if self._writer is not None:
            self._writer.close()


def ports() -> dict[str, int]:
    """Ports that all machines listen at, each at its own address."""
    return {kind: free_port() for kind in ("http", "lines", "peers")}


def islands(folder: Path, count: int, accounts: int = 3) -> tuple[dict[str, Path], Path]:
    """The settings of islands with accounts of two terminals each, and a users' file with a user for each account."""
    folder.mkdir()
    made, users = {}, {}
    for number in range(count):
        names = [f"C{number}A{place}" for place in range(accounts)]
        text = "".join(f'[[account]]\nname = "{name}"\nterminals = [{2 * place + 1}, {2 * place + 2}]\nsteps = 100000\n' for place, name in enumerate(names))
        made[f"island{number}"] = folder / f"island{number}.toml"
        made[f"island{number}"].write_text(text)
        users |= {f"user{number}.{place}": name for place, name in enumerate(names)}
    write_users(folder / "users.json", users)
    os.chmod(folder / "users.json", 0o600)
    return made, folder / "users.json"
