# SPDX-License-Identifier: Apache-2.0
"""A client of `mserve serve`: `Connection` and `Reply` are the wire, `in_words` says what a code means."""
from .codes import CODES, in_words, place
from .wire import BadLine, BadReply, ClientError, Connection, NoServer, Reply, ServerGone, TimedOut

__all__ = ["CODES", "BadLine", "BadReply", "ClientError", "Connection", "NoServer", "Reply", "ServerGone", "TimedOut", "in_words", "place"]
