# SPDX-License-Identifier: Apache-2.0
"""What the front counts, in the text format of Prometheus."""
from __future__ import annotations

import time
from collections import Counter
from collections.abc import Callable, Mapping, Sequence

BUCKETS = (0.001, 0.0025, 0.005, 0.01, 0.025, 0.05, 0.1, 0.25, 0.5, 1.0, 2.5, 5.0, 10.0)
# The longest wait is that of the last one to two spans of this many seconds.
SPAN = 60.0


class Metrics:
    """The counts since the start."""

    def __init__(self) -> None:
        self.restarts = 0
        self.replies: Counter[str] = Counter()
        self.sign_ons: Counter[str] = Counter()
        self.audit_faults = 0
        self.journal_faults = 0
        # What others have to tell, each as lines of text.
        self.more: list[Callable[[], list[str]]] = []
        self._records = 0
        self._flushes = 0
        self._flushing = 0.0
        self._below = [0] * (len(BUCKETS) + 1)
        self._waited = 0.0
        self._taken = 0.0
        self._longest = [0.0, 0.0]
        self._span = time.monotonic()

    def timed(self, waited: float, taken: float) -> None:
        """Notes a reply: how long the wait for it was, and how long the server took."""
        place = next((n for n, most in enumerate(BUCKETS) if waited <= most), len(BUCKETS))
        self._below[place] += 1
        self._waited += waited
        self._taken += taken
        self._turn()
        if waited > self._longest[0]:
            self._longest[0] = waited

    def flushed(self, records: int, taken: float) -> None:
        """Notes a flush of the journal: how many records it had, and how long it took."""
        self._records += records
        self._flushes += 1
        self._flushing += taken

    def longest(self) -> float:
        """The longest wait of the last minute or two, in seconds."""
        self._turn()
        return max(self._longest)

    def _turn(self) -> None:
        now = time.monotonic()
        if now - self._span > SPAN:
            fresh = now - self._span < 2 * SPAN
            self._longest = [0.0, self._longest[0] if fresh else 0.0]
            self._span = now

    def text(self, signed_on: dict[str, int], waiting: int, oldest: float, up: bool, journal: tuple[int, bool] | None = None) -> str:
        """All figures: how many are signed on by each way, how many lines wait, the oldest of them; and of the journal its last line, and whether it can
        be written."""
        lines = family("mfront_up", "gauge", "1 if the server is up.", {"": int(up)})
        lines += family("mfront_signed_on", "gauge", "Sessions that are signed on, by their way.", {f'way="{way}"': n for way, n in signed_on.items()})
        lines += family("mfront_sign_ons_total", "counter", "Attempts to sign on, by their end.", {f'end="{end}"': n for end, n in self.sign_ons.items()})
        lines += family("mfront_lines_total", "counter", "Lines that were answered, by their code; none for a line run to its end.",
                        {f'code="{code}"': n for code, n in sorted(self.replies.items())})
        lines += family("mfront_lines_waiting", "gauge", "Lines that have no reply yet.", {"": waiting})
        lines += family("mfront_longest_wait_seconds", "gauge", "The longest wait for a reply in the last minute or two.", {"": max(oldest, self.longest())})
        lines += family("mfront_child_restarts_total", "counter", "How often the server was started or connected to again.", {"": self.restarts})
        lines += family("mfront_child_seconds_total", "counter", "Seconds that the server took for lines.", {"": self._taken})
        lines += family("mfront_audit_faults_total", "counter", "Records that could not be written to the audit log.", {"": self.audit_faults})
        if journal is not None:
            lines += self._journal(*journal)
        lines += [line for tell in self.more for line in tell()]
        lines += histogram("mfront_wait_seconds", "How long a reply was waited for.", BUCKETS, {"": (self._below, self._waited)})
        return "\n".join(lines) + "\n"

    def _journal(self, last: int, up: bool) -> list[str]:
        lines = family("mfront_journal_up", "gauge", "1 if the journal can be written.", {"": int(up)})
        lines += family("mfront_journal_line", "gauge", "The number of the last line in the journal.", {"": last})
        lines += family("mfront_journal_records_total", "counter", "Records that were written to the journal.", {"": self._records})
        lines += family("mfront_journal_flushes_total", "counter", "Flushes of the journal, each of one or more records.", {"": self._flushes})
        lines += family("mfront_journal_flush_seconds_total", "counter", "Seconds that flushes of the journal took.", {"": self._flushing})
        return lines + family("mfront_journal_faults_total", "counter", "Flushes of the journal that failed.", {"": self.journal_faults})


def family(name: str, kind: str, about: str, values: Mapping[str, float]) -> list[str]:
    """The lines of a figure, one for each of its labels."""
    lines = [f"# HELP {name} {about}", f"# TYPE {name} {kind}"]
    return lines + [f"{name}{{{labels}}} {_figure(value)}" if labels else f"{name} {_figure(value)}" for labels, value in values.items()]


def histogram(name: str, about: str, bounds: Sequence[float], values: Mapping[str, tuple[Sequence[int], float]]) -> list[str]:
    """The lines of a histogram, those of each of its labels: how many values were up to each bound and not the one before, how many were above all bounds;
    and the sum of all."""
    lines = [f"# HELP {name} {about}", f"# TYPE {name} histogram"]
    for labels, (counts, total) in values.items():
        count, before = 0, f"{labels}," if labels else ""
        for bound, more in zip([*map(str, bounds), "+Inf"], counts, strict=True):
            count += more
            lines.append(f'{name}_bucket{{{before}le="{bound}"}} {count}')
        shown = f"{{{labels}}}" if labels else ""
        lines += [f"{name}_sum{shown} {total:.6f}", f"{name}_count{shown} {count}"]
    return lines


def _figure(value: float) -> str:
    """A figure; a whole number has all its digits."""
    return str(value) if isinstance(value, int) else f"{value:g}"
