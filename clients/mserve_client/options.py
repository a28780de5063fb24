# SPDX-License-Identifier: Apache-2.0
"""The words that the commands share: where the server or the front is, how long to wait, and how a command ends."""
from __future__ import annotations

import argparse
import getpass
import os
import sys
from collections.abc import Callable
from typing import TYPE_CHECKING, Any

from .wire import HOST, PATIENCE, ClientError, Connected, Connection

if TYPE_CHECKING:
    # A command that has no front starts without HTTP and TLS, which it would spend a third of its start on.
    from .front import FrontConnection

# The variable that has a token, if no file is named.
TOKEN = "MSERVE_TOKEN"

# The statuses of all commands.
FOUND, USAGE, FAILED, INTERRUPTED = 1, 2, 3, 130
STATUSES = "Status: 0 all went well; 1 a line was answered by a code, or something was found or refused; 2 the words are wrong; 3 no server, or no " \
           "answer; 130 an interrupt."


class NoSecret(ClientError):
    """There is no password and no token; the text says how to give one."""


def parser(name: str, about: str, **more: Any) -> argparse.ArgumentParser:
    """The reader of a command's words, with --host and --timeout, and those of a front."""
    words = argparse.ArgumentParser(prog=name, description=about, epilog=STATUSES, formatter_class=argparse.RawDescriptionHelpFormatter, **more)
    words.add_argument("--host", default=HOST, help=f"where the server listens (default {HOST})")
    words.add_argument("--timeout", type=seconds, default=PATIENCE, metavar="SECONDS",
                       help=f"how long to wait for a reply (default {PATIENCE:g}); 0 waits as long as it takes")
    words.add_argument("--text", choices=("ascii", "utf-8"), default="ascii",
                       help="utf-8: characters over 127 within strings, files and replies, each by an escape of ASCII (docs/TEXT.md); a front may "
                            "say so by itself")
    front = words.add_argument_group("through a front (mfront), in place of PORT and TERMINAL")
    front.add_argument("--front", type=front_url, metavar="URL", help="the front's address, as in a browser: https://front.example:8443")
    front.add_argument("--user", metavar="NAME", help="who signs on; the password is asked for. A token says by itself whose it is")
    front.add_argument("--token", metavar="FILE", help=f"a file with a token of the user (mfront token add), which nobody else may read; or the "
                                                       f"variable {TOKEN}")
    front.add_argument("--ca", metavar="FILE", help="certificates that the front's is verified by (default: the system's)")
    return words


def is_fronted(arguments: list[str] | None) -> bool:
    """Whether words name a front, so that PORT and TERMINAL are not among them."""
    given = sys.argv[1:] if arguments is None else arguments
    return any(word == "--front" or word.startswith("--front=") for word in given)


def add_place(words: argparse.ArgumentParser, arguments: list[str] | None, terminal_help: str) -> None:
    """Adds PORT and TERMINAL, unless a front is named."""
    if not is_fronted(arguments):
        words.add_argument("port", type=port, help="the server's port")
        words.add_argument("terminal", type=terminal, help=terminal_help)


def front_url(text: str) -> str:
    """The URL of a front."""
    from .front import Address
    try:
        Address.of(text)
    except ValueError as error:
        raise argparse.ArgumentTypeError(str(error)) from error
    return text


def secret(options: argparse.Namespace) -> str:
    """The password or the token that a front is to have: of a file, of the variable, or asked for. NoSecret."""
    if options.token is not None:
        with open(options.token, encoding="utf-8") as file:
            if os.fstat(file.fileno()).st_mode & 0o077:
                raise NoSecret(f"{options.token}: others may read it: chmod 600 {options.token}")
            return file.readline().strip()
    if TOKEN in os.environ:
        return os.environ[TOKEN]
    if not sys.stdin.isatty():
        raise NoSecret(f"no password can be asked for here: give --token FILE, or a token in the variable {TOKEN} (mfront token add {options.user})")
    return getpass.getpass(f"Password of {options.user}: ")


def seconds(text: str) -> float:
    """A count of seconds that is not negative."""
    value = float(text)
    if not 0 <= value < 1e9:
        raise ValueError
    return value


def port(text: str) -> int:
    """A port, 1 to 65535."""
    return whole(text, 65535)


def terminal(text: str) -> int:
    """A terminal, 1 to 9999."""
    return whole(text, 9999)


def whole(text: str, most: int) -> int:
    """A whole number from 1 to `most`."""
    if not text.isascii() or not text.isdigit() or not 1 <= int(text) <= most:
        raise argparse.ArgumentTypeError(f"{text!r} is not a whole number from 1 to {most}")
    return int(text)


def connected(options: argparse.Namespace, known: str | None = None) -> Connected:
    """The connection that the words ask for; `known` is the secret, if it was asked for before."""
    if options.front is not None and options.user is None and known is None and options.token is None and TOKEN not in os.environ:
        raise NoSecret(f"--user NAME is missing: who signs on at the front; or --token FILE, or a token in the variable {TOKEN}")
    made: Connected
    if options.front is None:
        made = Connection(options.port, options.terminal, host=options.host, timeout=options.timeout or None)
    else:
        made = signed_on(options, secret(options) if known is None else known)
    made.in_utf_8 = made.in_utf_8 or options.text == "utf-8"
    return made


def signed_on(options: argparse.Namespace, known: str) -> FrontConnection:
    """The connection to a front, by a secret."""
    from .front import FrontConnection
    return FrontConnection(options.front, options.user or "", known, authority=options.ca, timeout=options.timeout or None)


def command(name: str, words: Callable[[list[str] | None], argparse.ArgumentParser], run: Callable[[argparse.Namespace], int]) -> Callable[..., int]:
    """A command as its script calls it: it reads its words, does what they ask for, and gives its status."""
    def main(arguments: list[str] | None = None) -> int:
        chosen = words(arguments).parse_args(arguments)
        return guarded(name, lambda: run(chosen))
    return main


def guarded(name: str, act: Callable[[], int]) -> int:
    """The status of a command; what keeps it from its end is written to the standard error."""
    try:
        return act()
    except ClientError as error:
        tell(name, str(error))
        return FAILED
    except BrokenPipeError:
        os.dup2(os.open(os.devnull, os.O_WRONLY), sys.stdout.fileno())
        return FOUND
    except OSError as error:
        tell(name, f"{error.filename}: {error.strerror}" if error.filename else str(error))
        return FOUND
    except KeyboardInterrupt as error:
        tell(name, "; ".join(["interrupted", *getattr(error, "__notes__", [])]))
        return INTERRUPTED


def counted(count: int, word: str) -> str:
    """A count with its word: `1 line`, `2 lines`."""
    return f"{count:,} {word}" if count == 1 else f"{count:,} {word}s"


def tell(name: str, text: str) -> None:
    """Writes a line to the standard error."""
    print(f"{name}: {text}", file=sys.stderr, flush=True)
