#!/usr/bin/python3
# SPDX-License-Identifier: Apache-2.0
"""The front under load: many users at once, each of whom sends lines at a rate and knows what each reply has to be.

It starts a front of its own, over TLS, with the built program as its child. The wait for a reply begins when its line was due, so that a
front that falls back shows it. Then the same lines are sent to a server alone, one after the other, which says how much of the time is the server's.
Status 1 if a reply was lost, or was not that user's."""
from __future__ import annotations

import argparse
import asyncio
import json
import os
import statistics
import subprocess
import sys
import tempfile
import time
from dataclasses import dataclass, field
from pathlib import Path

sys.path[:0] = [str(Path(__file__).resolve().parent / folder) for folder in ("tests", ".", "../clients", "../tools")]

from front import Front, Person  # noqa: E402
from mserve_client import Connection  # noqa: E402
from running import connected, free_port, require_program, serve_words  # noqa: E402

OF_ACCOUNT = 10
NODES = 50
SPANS = 6
PARTS = ("front", "server", "users")
# Seconds after the last line in which replies may come.
PATIENCE = 30.0
TICKS = os.sysconf("SC_CLK_TCK")


def line_of(user: int, number: int) -> tuple[str, str]:
    """A line of a user, and what its reply has to be: a node is set and the one before it read, and a local counts on. Nodes are set again after
    fifty, since a store in memory is for some ten thousand of them."""
    before = (number - 1) * 7 + user if number else 0
    line = f'S ^L({user},{number % NODES})={number}*7+{user},A=$G(A)+1 W {user},":",$G(^L({user},{(number - 1) % NODES}),0),":",A'
    return line, f"{user}:{before}:{number + 1}"


@dataclass
class User:
    """What a user was told: how long each reply took, and what was wrong."""

    number: int
    waits: list[float] = field(default_factory=list)
    wrong: int = 0

    def takes(self, number: int, record: dict[str, object], due: float) -> None:
        """Compares a reply with what it has to be."""
        self.waits.append(time.monotonic() - due)
        self.wrong += record != {"id": number, "output": [], "rest": line_of(self.number, number)[1], "code": None}


def certificate(folder: Path) -> tuple[Path, Path]:
    """A certificate for localhost, and its key."""
    subprocess.run(["openssl", "req", "-x509", "-newkey", "ec", "-pkeyopt", "ec_paramgen_curve:prime256v1", "-nodes", "-days", "2", "-subj",
                    "/CN=localhost", "-addext", "subjectAltName=DNS:localhost", "-keyout", folder / "key.pem", "-out", folder / "certificate.pem"],
                   check=True, capture_output=True)
    return folder / "certificate.pem", folder / "key.pem"


def settings(folder: Path, users: int) -> tuple[Path, dict[str, str]]:
    """Accounts of ten terminals each, and a user for each terminal."""
    accounts = [f"A{number}" for number in range((users + OF_ACCOUNT - 1) // OF_ACCOUNT)]
    text = "".join(f'[[account]]\nname = "{name}"\nterminals = {[place * OF_ACCOUNT + n + 1 for n in range(OF_ACCOUNT)]}\nsteps = 10000\n'
                   for place, name in enumerate(accounts))
    (folder / "settings.toml").write_text(text)
    return folder / "settings.toml", {f"user{number}": accounts[number // OF_ACCOUNT] for number in range(users)}


async def sends(person: Person, user: User, began: float, rate: float, count: int) -> None:
    """Sends lines when they are due, whether or not the replies before came."""
    for number in range(count):
        due = began + number / rate + user.number / rate / 997
        await asyncio.sleep(max(0.0, due - time.monotonic()))
        await person.socket.send_str(json.dumps({"id": number, "line": line_of(user.number, number)[0]}))


async def hears(person: Person, user: User, began: float, rate: float, count: int) -> None:
    """Takes the replies."""
    for number in range(count):
        user.takes(number, await person.event(), began + number / rate + user.number / rate / 997)


async def asks(person: Person, user: User, count: int) -> None:
    """Sends each line once the reply before came: the front and the users are always busy."""
    for number in range(count):
        due = time.monotonic()
        await person.socket.send_str(json.dumps({"id": number, "line": line_of(user.number, number)[0]}))
        user.takes(number, await person.event(), due)


async def run(front: Front, names: list[str], rate: float, seconds: float, one_by_one: bool) -> tuple[list[User], list[float]]:
    """All users at once; and the processor time that the front, the server and the users took meanwhile."""
    people = [front.person(name) for name in names]
    for start in range(0, len(people), 20):
        await asyncio.gather(*(person.__aenter__() for person in people[start:start + 20]))
    users, count, began = [User(number) for number in range(len(people))], int(rate * seconds), time.monotonic() + 1
    pids = (front.process.pid, front.child, os.getpid())
    before = [processor_time(pid) for pid in pids]
    pairs = list(zip(people, users, strict=True))
    work = [asks(*pair, count) for pair in pairs] if one_by_one else [act(*pair, began, rate, count) for pair in pairs for act in (sends, hears)]
    try:
        async with asyncio.timeout(seconds + 1 + PATIENCE):
            await asyncio.gather(*work)
    except (TimeoutError, ConnectionError) as error:
        print(f"load: not all replies came: {error!r}")
    after = [processor_time(pid) for pid in pids]
    for person in people:
        await person.http.close()
    return users, [end - start for start, end in zip(before, after, strict=True)]


def processor_time(pid: int) -> float:
    """Seconds of a process."""
    fields = Path(f"/proc/{pid}/stat").read_text().rpartition(")")[2].split()
    return (int(fields[11]) + int(fields[12])) / TICKS


def alone(path: Path, store: str, count: int) -> list[float]:
    """How long the server alone takes for lines of a user, one after the other, its connection with it."""
    port = free_port()
    server = subprocess.Popen(serve_words(port, 10, store, str(path)), stdin=subprocess.DEVNULL)
    times = []
    try:
        connected(port).close()
        with Connection(port, 1) as connection:
            for number in range(count):
                line, wanted = line_of(0, number)
                began = time.perf_counter()
                reply = connection.send(line)
                times.append(time.perf_counter() - began)
                if reply.rest != wanted:
                    sys.exit(f"load: {line!r} was answered {reply}")
    finally:
        server.kill()
        server.wait()
    return times


def place(times: list[float], part: float) -> float:
    """The time that this part of all times does not exceed, in milliseconds."""
    return sorted(times)[min(len(times) - 1, int(part * len(times)))] * 1000


def told(users: list[User], wanted: int, spent: list[float], server: list[float]) -> int:
    """Prints what was found, and gives the status."""
    waits = [wait for user in users for wait in user.waits]
    lost, wrong = wanted - len(waits), sum(user.wrong for user in users)
    print(f"{len(users)} users, {wanted} lines: {lost} lost, {wrong} wrong")
    print(f"reply: median {statistics.median(waits) * 1000:.1f} ms, 99th percentile {place(waits, 0.99):.1f} ms, longest {max(waits) * 1000:.1f} ms")
    spans = [[wait for user in users for wait in user.waits[n * len(user.waits) // SPANS:(n + 1) * len(user.waits) // SPANS]] for n in range(SPANS)]
    print("99th percentile of each sixth: " + ", ".join(f"{place(span, 0.99):.1f}" for span in spans if span) + " ms")
    print(f"the server alone, its connection with it: mean {statistics.mean(server) * 1000:.3f} ms, 99th percentile {place(server, 0.99):.3f} ms")
    print("processor time of a line: " + ", ".join(f"{name} {one / wanted * 1e6:.0f} us" for name, one in zip(PARTS, spent, strict=True)))
    print(f"load of the machine: {os.getloadavg()[0]:.1f} on {len(os.sched_getaffinity(0))} processors of {os.cpu_count()}")
    return 1 if lost or wrong else 0


def main() -> int:
    """The status of the command."""
    words = argparse.ArgumentParser(description="Puts a front under load: many users at once, each of whom compares each reply.")
    words.add_argument("--users", type=int, default=100, help="how many users (default 100)")
    words.add_argument("--rate", type=float, default=20, help="lines of each user in a second (default 20)")
    words.add_argument("--seconds", type=float, default=60, help="for how long (default 60)")
    words.add_argument("--one-by-one", action="store_true",
                       help="each user sends a line once the reply before came: as many as by --rate and --seconds, which are not kept to")
    words.add_argument("--store", choices=("memory", "file"), default="memory",
                       help="the kind of store (default memory); in a file each line waits for the disk")
    options = words.parse_args()
    require_program()
    with tempfile.TemporaryDirectory(prefix="mfront-load") as name:
        folder = Path(name)
        path, names = settings(folder, options.users)
        stores = ["memory"] * 2 if options.store == "memory" else [str(folder / f"{kind}.db") for kind in ("front", "alone")]
        front = Front(folder, certificate(folder), users=names, settings=path, store=stores[0], limits={"connections_of_address": 2 * options.users + 10})
        try:
            users, spent = asyncio.run(run(front, list(names), options.rate, options.seconds, options.one_by_one))
        finally:
            front.stop()
        return told(users, options.users * int(options.rate * options.seconds), spent, alone(path, stores[1], 2000))


if __name__ == "__main__":
    sys.exit(main())
