#!/usr/bin/env python3
# SPDX-License-Identifier: Apache-2.0
"""The second interpreter as a program, over memory alone: tests of the program play on it before the program has a form.

    MSERVE=wip/second_program.py /usr/bin/python3 -m pytest tests/test_registry.py"""
import argparse
import contextlib
import os
import socket
import sys
import tomllib

TOP = os.path.dirname(os.path.dirname(os.path.realpath(__file__)))
sys.path[:0] = [os.path.join(TOP, "tools"), os.path.join(TOP, "tests")]
from second_interpreter.world import World, deep  # noqa: E402


def shown(output: bytes, settings: str, name: str) -> bytes:
    """The replies at the terminals of an account."""
    terminals = next(account["terminals"] for account in tomllib.loads(settings)["account"] if account["name"] == name)
    marks = tuple(b"%d%c" % (terminal, mark) for terminal in terminals for mark in b":-.!")
    return b"".join(line for line in output.splitlines(True) if line.startswith(marks))


def answer(peer: socket.socket, world: World) -> None:
    """Answers the lines of a connection."""
    rest = b""
    while given := peer.recv(65536):
        *lines, rest = (rest + given).split(b"\n")
        peer.sendall(b"".join(world.replies(line + b"\n") for line in lines))


def serve(world: World, port: int, connections: int) -> None:
    """Serves this many connections, one after the other."""
    with socket.create_server(("127.0.0.1", port)) as place:
        for _ in range(connections):
            with place.accept()[0] as peer, contextlib.suppress(ConnectionError):
                answer(peer, world)


def main() -> None:
    """Runs, or serves."""
    reader = argparse.ArgumentParser()
    reader.add_argument("word", choices=["run", "serve"])
    for name in ("--settings", "--store", "--only"):
        reader.add_argument(name)
    for name in ("--port", "--connections"):
        reader.add_argument(name, type=int)
    asked = reader.parse_args()
    with open(asked.settings, encoding="utf-8") as file:
        settings = file.read()
    world = World(settings)
    if asked.word == "serve":
        serve(world, asked.port, asked.connections)
    else:
        output = world.replies(sys.stdin.buffer.read())
        sys.stdout.buffer.write(shown(output, settings, asked.only) if asked.only else output)


deep(main)
