# SPDX-License-Identifier: Apache-2.0
"""What systemd hears from a service of `Type=notify`: that signals may be sent to it. Before that, while Python itself starts, a reload would end it."""
from __future__ import annotations

import contextlib
import os
import socket

# Where systemd listens; a name that begins with @ is of no file.
PLACE = "NOTIFY_SOCKET"


def tell_ready() -> None:
    """Says so, if systemd has started this process and waits for it. What this process starts says nothing."""
    place = os.environ.pop(PLACE, "")
    if place:
        with contextlib.suppress(OSError), socket.socket(socket.AF_UNIX, socket.SOCK_DGRAM) as way:
            way.sendto(b"READY=1", f"\0{place[1:]}" if place.startswith("@") else place)
