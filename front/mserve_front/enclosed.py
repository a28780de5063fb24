# SPDX-License-Identifier: Apache-2.0
"""Has a process in a network of its own, to which no other user of the machine has access; and, run by itself (`enclosure.py`), connects to one there.

`PID PORT` gives a connection to a port in the network of a process over the socket that is the standard input. It imports little, so that it is soon there:
`socket` would take as long as all the rest."""
import _socket
import ctypes
import errno
import os
import struct
import sys
import time
from fcntl import ioctl

CLONE_NEWUSER, CLONE_NEWNET = 0x10000000, 0x40000000
PR_SET_PDEATHSIG, SIGKILL = 1, 9
SIOCGIFFLAGS, SIOCSIFFLAGS, IFF_UP = 0x8913, 0x8914, 1
FIRST_PAUSE, LONGEST_PAUSE = 0.002, 0.1
# Nobody listens yet, or the loopback is not up yet.
NOT_YET = (errno.ECONNREFUSED, errno.ENETUNREACH, errno.EADDRNOTAVAIL)
_libc = ctypes.CDLL(None, use_errno=True)


def checked(result: int) -> int:
    """The result of a call of the C library. Raises OSError."""
    if result < 0:
        raise OSError(ctypes.get_errno(), os.strerror(ctypes.get_errno()))
    return result


def write(path: str, text: str) -> None:
    """Writes a file of /proc."""
    with open(path, "w", encoding="ascii") as file:
        file.write(text)


def enclose() -> None:
    """Has this process in a network of its own, whose loopback is up."""
    user, group = os.geteuid(), os.getegid()
    checked(_libc.unshare(CLONE_NEWUSER | CLONE_NEWNET))
    write("/proc/self/setgroups", "deny")
    write("/proc/self/uid_map", f"{user} {user} 1")
    write("/proc/self/gid_map", f"{group} {group} 1")
    any_socket = _socket.socket(_socket.AF_INET, _socket.SOCK_DGRAM)
    name = struct.pack("16sh22x", b"lo", 0)
    flags = struct.unpack_from("16sh", ioctl(any_socket.fileno(), SIOCGIFFLAGS, name))[1]
    ioctl(any_socket.fileno(), SIOCSIFFLAGS, struct.pack("16sh22x", b"lo", flags | IFF_UP))
    any_socket.close()


def begin(parent: int, there: _socket.socket, count: int) -> None:
    """Has this process, a child that becomes a program, in a network of its own, and has it end with the parent. This many sockets that are in this network
    are sent over another one: who has them connects by them."""
    enclose()
    own = [_socket.socket(_socket.AF_INET, _socket.SOCK_STREAM) for _ in range(count)]
    there.sendmsg([b"."], [(_socket.SOL_SOCKET, _socket.SCM_RIGHTS, struct.pack(f"{count}i", *(one.fileno() for one in own)))])
    end_with(parent)


def end_with(parent: int) -> None:
    """Has this process, a child, end when the parent does, however that ends. Raises OSError if it has ended."""
    checked(_libc.prctl(PR_SET_PDEATHSIG, SIGKILL, 0, 0, 0))
    if os.getppid() != parent:
        raise OSError(errno.ESRCH, "the parent has ended")


def network(process: int | str) -> str:
    """What tells the network of a process from others; empty if it has ended."""
    try:
        return os.readlink(f"/proc/{process}/ns/net")
    except OSError:
        return ""


def connect(process: int, port: int) -> None:
    """Sends a connection to a port in the network of a process, once somebody listens there."""
    own, pause = network("self"), FIRST_PAUSE
    while network(process) == own:
        time.sleep(FIRST_PAUSE)
    for kind, flag in (("user", CLONE_NEWUSER), ("net", CLONE_NEWNET)):
        descriptor = os.open(f"/proc/{process}/ns/{kind}", os.O_RDONLY | os.O_CLOEXEC)
        checked(_libc.setns(descriptor, flag))
    while True:
        made = _socket.socket(_socket.AF_INET, _socket.SOCK_STREAM)
        try:
            made.connect(("127.0.0.1", port))
            break
        except OSError as error:
            made.close()
            if error.errno not in NOT_YET:
                raise
            if not network(process):
                sys.exit("the program has ended")
            time.sleep(pause)
            pause = min(2 * pause, LONGEST_PAUSE)
    there = _socket.socket(fileno=0)
    there.sendmsg([b"."], [(_socket.SOL_SOCKET, _socket.SCM_RIGHTS, struct.pack("i", made.fileno()))])


if __name__ == "__main__":
    try:
        connect(int(sys.argv[1]), int(sys.argv[2]))
    except OSError as error:
        sys.exit(f"mfront: the server's own network: {error}")
