# SPDX-License-Identifier: Apache-2.0
"""PostgreSQL for these tests: clusters of their own in a folder, reached by a socket there alone."""
from __future__ import annotations

import asyncio
import contextlib
import os
import pwd
import shutil
import subprocess
import tempfile
import time
from pathlib import Path

from front import Patience, missed

# Its programs, of the newest version that is there.
PROGRAMS = sorted(Path("/usr/lib/postgresql").glob("*/bin"), key=lambda path: int(path.parent.name) if path.parent.name.isdigit() else 0)
USER = "postgres"
# Less memory and fewer processes than a service has. Its processes are killed here, and the machine is not: so nothing waits for the disk.
IN_MEMORY = "/dev/shm" if os.access("/dev/shm", os.W_OK) else "/tmp"
OPTIONS = ("-c listen_addresses= -c fsync=off -c shared_buffers=8MB -c max_wal_senders=4 -c autovacuum=off -c wal_keep_size=64MB -c jit=off "
           "-c wal_retrieve_retry_interval=200")


def _owner() -> list[str]:
    """The words by which its programs run as a user who is not root."""
    return ["setpriv", "--reuid", USER, "--regid", USER, "--clear-groups"] if os.geteuid() == 0 else []


def required() -> None:
    """Skips a test if a part is missing."""
    try:
        import psycopg  # noqa: F401
    except ModuleNotFoundError:
        missed("psycopg is not there: apt-get install python3-psycopg")
    if not PROGRAMS:
        missed("PostgreSQL is not there: apt-get install postgresql")
    if os.geteuid() == 0 and USER not in {user.pw_name for user in pwd.getpwall()}:
        missed(f"there is no user {USER}, whom PostgreSQL runs as")


class Cluster:
    """A server of PostgreSQL, in a folder that its user can enter."""

    def __init__(self, primary: Cluster | None = None, folder: str = IN_MEMORY, more: str = "") -> None:
        """Makes and starts it below a folder, with more options; with another one it is a replica of that. Skips the test if a part is missing."""
        required()
        self.folder = Path(tempfile.mkdtemp(prefix="mfront-pg-", dir=folder))
        self.options = f"{OPTIONS} {more} -c unix_socket_directories={self.folder}"
        self.data = self.folder / "data"
        if _owner():
            shutil.chown(self.folder, USER, USER)
        self.folder.chmod(0o755)
        if primary is None:
            self._run("initdb", "-D", self.data, "-A", "trust", "-N", "--wal-segsize=1", "-U", USER, "--no-locale", "-E", "UTF8")
        else:
            self._run("pg_basebackup", "-D", self.data, "-R", "-X", "stream", "-c", "fast", "-d", f"{primary.place} application_name=replica")
        self.start()

    @property
    def place(self) -> str:
        """How it is connected to."""
        return f"host={self.folder} user={USER} dbname=postgres"

    def _run(self, name: str, *words: object) -> None:
        done = subprocess.run([*_owner(), PROGRAMS[-1] / name, *map(str, words)], capture_output=True, text=True, timeout=2 * Patience.seconds, cwd=self.folder,
                              stdin=subprocess.DEVNULL)
        assert done.returncode == 0, f"{name}: {done.stdout}{done.stderr}"

    @property
    def head(self) -> int:
        """The process that has started its others."""
        return int((self.data / "postmaster.pid").read_text().splitlines()[0])

    def start(self) -> None:
        """Starts it."""
        self._run("pg_ctl", "start", "-w", "-D", self.data, "-l", self.folder / "log", "-o", self.options)

    def stop(self) -> None:
        """Ends it at once, as a crash does."""
        self._run("pg_ctl", "stop", "-D", self.data, "-m", "immediate")

    def promote(self) -> None:
        """Has a replica be the primary."""
        self._run("pg_ctl", "promote", "-w", "-D", self.data)

    def does(self, statement: str) -> list[tuple[object, ...]]:
        """Runs a statement, and gives what it finds."""
        import psycopg
        with psycopg.connect(self.place, autocommit=True) as base:
            found = base.execute(statement)
            return found.fetchall() if found.description else []

    def waits_for(self, replica: Cluster) -> str:
        """Has each row acknowledged only once a replica has it too, and gives how the pair is connected to."""
        self.does("ALTER SYSTEM SET synchronous_standby_names = 'replica'")
        self.does("SELECT pg_reload_conf()")
        while self.does("SELECT sync_state FROM pg_stat_replication") != [("sync",)]:
            time.sleep(0.05)
        return f"host={self.folder},{replica.folder} user={USER} dbname=postgres target_session_attrs=read-write"

    def remove(self) -> None:
        """Ends it, and removes its folder."""
        subprocess.run([*_owner(), PROGRAMS[-1] / "pg_ctl", "stop", "-D", self.data, "-m", "immediate"], capture_output=True, timeout=60, cwd="/")
        shutil.rmtree(self.folder, ignore_errors=True)


class Wire:
    """A way over TCP to a database, which can be cut so that the database does not see it."""

    def __init__(self, cluster: Cluster) -> None:
        self._server: asyncio.Server | None = None
        self._near: list[asyncio.StreamWriter] = []
        # What leads to the database is kept open after a cut.
        self._far: list[asyncio.StreamWriter] = []
        self._tasks: set[asyncio.Task[None]] = set()
        # When each connection was asked for.
        self.asked: list[float] = []
        # Whether a connection is kept open though the database is not there.
        self.keeps = False
        self.leads_to(cluster)

    async def begin(self) -> str:
        """Listens, and gives how the database is connected to."""
        self._server = await asyncio.start_server(self._carries, "127.0.0.1", 0)
        return f"host=127.0.0.1 port={self._server.sockets[0].getsockname()[1]} user=postgres dbname=postgres sslmode=disable"

    async def _carries(self, reader: asyncio.StreamReader, writer: asyncio.StreamWriter) -> None:
        self.asked.append(time.monotonic())
        try:
            there, back = await asyncio.open_unix_connection(str(self._socket))
        except OSError:
            if not self.keeps:
                writer.close()
            self._near.append(writer)
            return
        self._near.append(writer)
        self._far.append(back)
        for one, other in ((reader, back), (there, writer)):
            task = asyncio.create_task(self._copies(one, other))
            self._tasks.add(task)

    async def _copies(self, reader: asyncio.StreamReader, writer: asyncio.StreamWriter) -> None:
        with contextlib.suppress(ConnectionError):
            while data := await reader.read(65_536):
                writer.write(data)

    def leads_to(self, cluster: Cluster) -> None:
        """Leads to another database from now on, and ends the connections to that of before."""
        self._socket = cluster.folder / ".s.PGSQL.5432"
        self.cut()

    def cut(self) -> None:
        """Ends all connections at their near side."""
        for writer in self._near:
            writer.transport.abort()
        self._near.clear()

    def close(self) -> None:
        """Ends all of it."""
        self.cut()
        for writer in self._far:
            writer.transport.abort()
        self._server.close()
