# SPDX-License-Identifier: Apache-2.0
"""How the scripts of this folder run the built program.

The program is the one that the variable MSERVE names; else crates/mserve/out/mserve, as the gate or a build by `./mserve` leaves it; else the
released one that `./mserve` unpacked. So is the one that prints islands, with the variable MISLANDS and the name mislands.
Where a script says no more, a run is over a new store in memory, by
settings in which terminal 1 is of ALICE and a line may use 2,000 steps."""
import contextlib
import os
import secrets
import socket
import subprocess
import sys
import time
from collections import deque

TOP = os.path.realpath(os.path.join(os.path.dirname(os.path.abspath(__file__)), ".."))


def program_of(name, variable):
    """The path of a program."""
    built = os.path.join(TOP, "crates", name, "out", name)
    return os.environ.get(variable) or (built if os.path.exists(built) else os.path.join(TOP, "release", "unpacked", name))


PROGRAM, ISLANDS = program_of("mserve", "MSERVE"), program_of("mislands", "MISLANDS")
ONE_ACCOUNT = os.path.join(TOP, "tests", "settings", "one_account.toml")
# The same with each language that an account can have.
OF_LANGUAGE = {0: ONE_ACCOUNT, 1: os.path.join(TOP, "tests", "settings", "one_account_language_1.toml")}
STEPS = 2000
# A folder of files in memory, if the system has one: for stores of which a test asks nothing that takes a disk.
IN_MEMORY = "/dev/shm" if os.path.isdir("/dev/shm") else None


def require_program():
    """Ends the script if there is no program."""
    if not os.path.exists(PROGRAM):
        script = os.path.splitext(os.path.basename(sys.argv[0]))[0]
        sys.exit(f"{script}: there is no program: run ./mserve --help, which unpacks or builds it")


def run_words(settings=ONE_ACCOUNT, store="memory", only=None):
    """The words of a run by these settings over this store; of one that tells the account of this name alone, where there is one."""
    words = [PROGRAM, "run", "--settings", settings, "--store", store]
    return words if only is None else [*words, "--only", only]


def serve_words(port, connections, store="memory", settings=ONE_ACCOUNT):
    """The words of a server for this many connections."""
    return [PROGRAM, "serve", "--settings", settings, "--store", store, "--port", str(port), "--connections", str(connections)]


def free_port():
    """A port that nobody listens at. The socket that finds it never listens: a process that another thread starts just then has it open too, until
    it runs its program, and a server could not take the port meanwhile, nor would a client be refused there."""
    for _ in range(len(PORTS)):
        PORTS.rotate(-1)
        with socket.socket() as place, contextlib.suppress(OSError):
            place.setsockopt(socket.SOL_SOCKET, socket.SO_REUSEADDR, 1)
            place.bind(("127.0.0.1", PORTS[0]))
            return PORTS[0]
    sys.exit("running: there is no free port")


def ports_apart():
    """Ports that the system gives to nobody by itself, as it does to connections and to whom any port will do: they may take one that was found free
    before the server that it was found for has it. Each process begins at another one."""
    with open("/proc/sys/net/ipv4/ip_local_port_range", encoding="ascii") as file:
        least, most = map(int, file.read().split())
    found = deque(port for port in range(10_000, 65_536) if not least <= port <= most) or deque(range(least, most + 1))
    found.rotate(secrets.randbelow(len(found)))
    return found


def connected(port):
    """A connection to a server that may be starting yet, however busy the machine is."""
    end = time.monotonic() + 60
    while True:
        try:
            return socket.create_connection(("127.0.0.1", port), timeout=60)
        except ConnectionRefusedError:
            if time.monotonic() > end:
                raise
            time.sleep(0.01)


COMMAND = run_words()


def run(stream, settings=ONE_ACCOUNT, store="memory", only=None, **more):
    """The status, the output and what was told of faults, of a run over a stream."""
    ran = subprocess.run(run_words(settings, store, only), input=stream, capture_output=True, timeout=60, **more)
    return ran.returncode, ran.stdout, ran.stderr


PORTS = ports_apart()
