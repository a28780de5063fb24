# SPDX-License-Identifier: Apache-2.0
"""Other users of the machine: they cannot reach the server's port, whenever they try, nor take it."""
from __future__ import annotations

import asyncio
import os
import signal
import socket
import subprocess
import sys
from pathlib import Path

import pytest
from front import Front, in_loop, missed, until
from mserve_front import enclosed
from mserve_front.doors import held
from mserve_front.enclosure import HELPER, PORT, can_enclose, connected, started
from mserve_front.server import HOST

# What a local user without rights does: finds ports that are listened at, says a line at each terminal there, and looks for the word. It is at each new one
# as soon as that is there: a server that begins takes who comes first.
INTRUDER = """
import socket, sys, time
def ports():
    for name in ("/proc/net/tcp", "/proc/net/tcp6"):
        for line in open(name).readlines()[1:]:
            fields = line.split()
            if fields[3] == "0A":
                yield int(fields[1].rpartition(":")[2], 16)
end, found, tried, opened = time.time() + float(sys.argv[1]), set(), set(), []
while time.time() < end:
    there = {*ports(), 9000}
    tried &= there
    for port in there - tried:
        way = socket.socket()
        way.settimeout(0.2)
        try:
            way.connect(("127.0.0.1", port))
            way.sendall(b"1 W ^SECRET\\n")
            tried.add(port)
            opened.append((port, way))
        except OSError:
            pass
for port, way in opened:
    try:
        if b"hidden" in way.recv(1000):
            found.add(port)
    except OSError:
        pass
print(len(found))
"""


@pytest.fixture(autouse=True)
def needed() -> None:
    if not can_enclose():
        missed("user namespaces are refused here")
    if os.geteuid():
        missed("only root can try it as another user")


def as_nobody(*words: str) -> subprocess.Popen[str]:
    return subprocess.Popen(["setpriv", "--reuid", "65534", "--regid", "65534", "--clear-groups", *words], stdout=subprocess.PIPE, stderr=subprocess.PIPE,
                            text=True)


@in_loop()
async def test_a_server_that_is_killed_before_it_has_sent_its_sockets(monkeypatch: pytest.MonkeyPatch) -> None:
    """The front waits for none of them, and so goes on: it held all its users up for ever."""
    monkeypatch.setattr(enclosed, "begin", lambda *_: os.kill(os.getpid(), signal.SIGKILL))
    socket.setdefaulttimeout(30)
    try:
        process, ways = await started(["/bin/true"])
    finally:
        socket.setdefaulttimeout(None)
    assert ways == [] and await connected(process, PORT, ways) is None
    assert await process.wait() == -signal.SIGKILL


@pytest.mark.alone
@pytest.mark.long
@in_loop()
async def test_nobody_reaches_the_server_also_while_it_is_started_again(start, tmp_path) -> None:
    """The intruder tries each port of the machine, those of other tests too, and is to come first at a server that begins."""
    front: Front = start(tls=False, store=str(tmp_path / "store"))
    async with front.person("ada") as ada:
        assert await ada.told('S ^SECRET="hidden"') == ""
        intruder = as_nobody(sys.executable, "-c", INTRUDER, "12")
        for _ in range(10):
            await asyncio.sleep(0.3)
            front.kill_child()

            async def again() -> bool:
                return (await ada.line("W ^SECRET")).get("rest") == "hidden"
            await until(again, "the server")
        found, told = await asyncio.to_thread(intruder.communicate)
        assert (found, told) == ("0\n", "")


@in_loop()
async def test_nobody_enters_the_network_of_the_server(start) -> None:
    front: Front = start(tls=False)
    own, other = (os.readlink(f"/proc/{process}/ns/net") for process in (front.process.pid, front.child))
    assert own != other
    for words in (["nsenter", "--user", "--net", "--target", str(front.child), "true"], [*HELPER, str(front.child), str(PORT)]):
        tried = as_nobody(*words)
        _, told = await asyncio.to_thread(tried.communicate)
        assert tried.returncode != 0 and "ermi" in told, told


@in_loop()
async def test_the_server_ends_with_who_started_it(start) -> None:
    front: Front = start(tls=False)
    child = front.child
    front.process.kill()
    await until(lambda: not Path(f"/proc/{child}").exists(), "the end of the server")


# What a local user without rights does: tries to have ports, in each way that there is, and says which of them were had.
TAKER = """
import socket, sys, time
end, ports, found = time.time() + float(sys.argv[1]), [int(text) for text in sys.argv[2:]], set()
while time.time() < end:
    for port in ports:
        for ways in ((), ("SO_REUSEADDR",), ("SO_REUSEPORT",), ("SO_REUSEADDR", "SO_REUSEPORT")):
            with socket.socket() as place:
                for way in ways:
                    place.setsockopt(socket.SOL_SOCKET, getattr(socket, way), 1)
                try:
                    place.bind(("127.0.0.1", port))
                    place.listen()
                    found.add(port)
                except OSError:
                    pass
print(len(found))
"""


def test_nobody_takes_a_port_that_is_held() -> None:
    """As a standby holds its own, and a gate those of its fronts, which hears of users without TLS: before a front listens, while it does, and after its
    end. The front takes it all the same, also where connections were not long ago; another front of this user does not."""
    gates, own = held(HOST, 0, shared=True), held(HOST, 0)
    ports = [place.getsockname()[1] for place in (gates, own)]

    def taken() -> str:
        return as_nobody(sys.executable, "-c", TAKER, "0.1", *map(str, ports)).communicate()[0]
    assert taken() == "0\n"
    for _ in range(2):
        fronts = held(HOST, ports[0], shared=True)
        for place in (fronts, own):
            place.setsockopt(socket.SOL_SOCKET, socket.SO_REUSEADDR, 1)
            place.listen()
            with socket.create_connection(place.getsockname()), place.accept()[0] as peer:
                peer.shutdown(socket.SHUT_RDWR)
        assert taken() == "0\n"
        with pytest.raises(OSError, match="in use"):
            held(HOST, ports[1])
        for place in (fronts, own):
            place.close()
        own = held(HOST, ports[1])
        assert taken() == "0\n"
    own.close()
    gates.close()
