# SPDX-License-Identifier: Apache-2.0
"""When certificates expire: from then on nobody connects. What a process shows is what it has read, which may not be what the file is by now."""
from __future__ import annotations

import re
import ssl
from collections.abc import Iterator
from datetime import UTC, datetime
from pathlib import Path

from .metrics import family

FIGURE = "mfront_certificate_expires_timestamp_seconds"
CERTIFICATE = re.compile("-----BEGIN CERTIFICATE-----.*?-----END CERTIFICATE-----", re.DOTALL)
# The tag of the version, which old certificates do not have, and the tag of a time whose year has two digits.
VERSION, SHORT_YEAR = 0xA0, 0x17
# The place of the times in a certificate, after its number, its algorithm and who made it.
TIMES = 3


def expires(path: Path) -> float | None:
    """When the first one of a file's certificates expires, in seconds since 1970: a chain is as good as each of them. None if that cannot be read."""
    try:
        found = CERTIFICATE.findall(path.read_text(encoding="utf-8"))
        return min((_end_of(ssl.PEM_cert_to_DER_cert(one)) for one in found), default=None)
    except (OSError, ValueError, IndexError):
        return None


def of_certificate(end: float | None) -> list[str]:
    """The figure, in the text format of Prometheus; nothing if it is not known."""
    return [] if end is None else family(FIGURE, "gauge", "When the certificate that is shown to users expires, in seconds since 1970.", {"": int(end)})


def _end_of(data: bytes) -> float:
    """When a certificate expires. Raises ValueError or IndexError if it is not in form."""
    whole = _parts(_parts(data)[0][1])[0][1]
    _, (tag, text) = _parts([content for tag, content in _parts(whole) if tag != VERSION][TIMES])
    year = ("19" if text >= b"5" else "20") if tag == SHORT_YEAR else ""
    return datetime.strptime(year + text.decode("ascii"), "%Y%m%d%H%M%SZ").replace(tzinfo=UTC).timestamp()


def _parts(data: bytes) -> list[tuple[int, bytes]]:
    """The values in DER that come one after another: the tag and the content of each."""
    return list(_each(data))


def _each(data: bytes) -> Iterator[tuple[int, bytes]]:
    at = 0
    while at < len(data):
        tag, size, at = data[at], data[at + 1], at + 2
        if size & 0x80:
            # This many bytes more have the size.
            more = size & 0x7F
            size, at = int.from_bytes(data[at:at + more], "big"), at + more
        yield tag, data[at:at + size]
        at += size
