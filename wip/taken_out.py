# SPDX-License-Identifier: Apache-2.0
"""Takes mends of the front out, one by one, and looks whether a test fails that is to hold it: a test that passes without its mend holds nothing.

    taken_out.py CLONE RECORD [WORD ..] [--patience S]    CLONE: a clone for this alone, with its program unpacked; WORD: those whose finding has it

RECORD gets a line for each test: the finding, the test, `fails` or `PASSES`, seconds, and the last line of what the test said. What it has is passed over.
A script of a session, not a tool: it knows lines of the sources by heart, and says so where one is not there."""
import argparse
import json
import subprocess
import sys
import time
from pathlib import Path

FRONT, TESTS = "front/mserve_front", "front/tests"
# A finding; the file, what stands there and what comes in its place; and the tests of which each is to fail.
MENDS = (
    ("cheap frames and refused lines stop all: turns", "sessions.py", "        await self._cheap.turn(session.account)\n", "        pass\n",
     ("test_attacks.py::test_a_neighbour_is_served_during_an_attack[pings]", "test_attacks.py::test_a_neighbour_is_served_during_an_attack[refused_lines]")),
    ("refused lines flood the audit log", "sessions.py", '        if "refused" in record:\n            session.refused += 1\n            return\n', "",
     ("test_attacks.py::test_a_neighbour_is_served_during_an_attack[refused_lines]",)),
    ("requests that are sent ahead stop all", "doors.py", "        elif self._free and self._held:\n", "        elif self._held:\n",
     ("test_fuzz.py::test_requests_are_handed_on_one_by_one_however_their_bytes_come",)),
    ("connections that send all that is taken", "doors.py", "        if len(self._held) > WAITING and not self._paused", "        if False and not self._paused",
     ("test_fuzz.py::test_a_door_reads_no_more_while_much_waits",)),
    ("sign-on of all is denied: a user is locked out", "signing.py", '    return f"{place} {name}"', "    return name",
     ("test_signing.py::test_wrong_tries_from_elsewhere_slow_nobody",)),
    ("sign-on of all is denied: right passwords", "signing.py", ".put(place, name, attempt)", '.put("", name, attempt)',
     ("test_signing.py::test_addresses_take_turns_and_within_one_the_names",)),
    ("turns by terminal", "shares.py", 'self.of(self._account_of.get(asked.terminal, ""))', "self.of(str(asked.terminal))",
     ("test_shares.py::test_busy_accounts_have_the_same_time_of_the_server_whatever_their_lines_and_terminals",)),
    ("a sign-on whose client has gone holds a terminal", "web.py", "        if request.transport is None:\n            # Who has gone", "        if False:\n            # Who has gone",
     ("test_shares.py::test_a_sign_on_whose_client_has_gone_holds_no_terminal",)),
    ("a local user reads all accounts", "server.py", "    enclosed = await asyncio.to_thread(can_enclose)\n", "    enclosed = False\n",
     ("test_enclosure.py::test_nobody_enters_the_network_of_the_server", "test_enclosure.py::test_nobody_reaches_the_server_also_while_it_is_started_again")),
    ("memory and rows of one account: rows", "quotas.py", "{ROWS: limits.rows, ", "{ROWS: 1 << 60, ",
     ("test_quotas.py::test_an_account_over_its_quota_of_rows_is_slowed_and_told",)),
    ("memory and rows of one account: memory", "quotas.py", "MEMORY: limits.memory, ", "MEMORY: 1 << 60, ",
     ("test_quotas.py::test_an_account_over_its_quota_of_memory_is_slowed_until_its_sessions_end",)),
    ("memory is charged to who had the server", "quotas.py", "    def keep(self, accounts", "    def look(self) -> None:\n        pass\n\n    def keep(self, accounts",
     ("test_quotas.py::test_memory_is_charged_to_who_had_the_server",)),
    ("units without bounds", "../../packaging/mfront.service", "LimitAS=3G\n", "", ("test_quotas.py::test_the_units_bound_memory_and_files",)),
    ("heads of odd forms: a field twice", "http_head.py", '    if names.count("host") != 1 or any(names.count(name) > 1 for name in _ONCE):\n',
     '    if "host" not in names:\n', ("test_fuzz.py::test_heads_of_odd_forms_are_refused",)),
    ("heads of odd forms: a body without a length", "http_head.py", '"transfer-encoding" in names or ', "", ("test_fuzz.py::test_heads_of_odd_forms_are_refused",)),
    ("weak passwords: names and common words", "passwords.py", "in (name.lower(), *COMMON):", "in ():", ("test_password.py::test_passwords_that_are_not_taken",)),
    ("weak passwords: rows", "passwords.py", "    if _steps(lower) * 3 >= 2 * (len(lower) - 1):\n", "    if False:\n",
     ("test_password.py::test_passwords_that_are_not_taken",)),
    ("weak passwords: short ones", "passwords.py", "LEAST, MOST = 12, 1024", "LEAST, MOST = 6, 1024", ("test_password.py::test_passwords_that_are_not_taken",)),
    ("tokens after passwd", "users.py", "        self.tokens.clear()\n", "", ("test_removed.py::test_another_password_ends_tokens_and_sessions",)),
    ("tokens as passwords", "web.py", 'tokens="Origin" not in request.headers', "tokens=True", ("test_password.py::test_a_token_is_no_password_of_the_page",)),
    ("a start on a full disk", "kept_room.py", '        try:\n            check_room(self._folder, LENT, 0)\n', "        return\n        try:\n            check_room(self._folder, LENT, 0)\n",
     ("test_kept_room.py::test_a_front_that_starts_on_a_full_disk_serves", "test_kept_room.py::test_a_journal_is_taken_on_a_disk_that_is_full")),
    ("one account takes all of the room that is kept", "service.py", "settings.journal.spare // (2 * max(1, len(settings.terminals)))", "1 << 60",
     ("test_kept_room.py::test_an_account_that_takes_more_than_its_share_of_what_is_kept_is_slowed",)),
    ("PostgreSQL: the lock of one's own connection", "journal_table.py", "(holder := self._holder(base)) in self._own:", "(holder := self._holder(base)) in ():",
     ("test_table.py::test_connections_that_are_cut",)),
    ("PostgreSQL: a lock of one's own that cannot end yet", "journal_table.py", "            if holder in self._own:\n                self.close()\n",
     "            if False:\n                self.close()\n", ("test_silent.py::test_a_connection_that_the_database_cannot_end_yet_is_ones_own",)),
    ("PostgreSQL: the journal cannot be written for too long", "journal.py", "RETRY, HELD = 1.0, 30.0", "RETRY, HELD = 10.0, 30.0",
     ("test_table.py::test_a_front_goes_on_soon_after_its_database",)),
    ("PostgreSQL: a way that stays open", "journal_table.py", "ANSWER, LAST, LONGEST = 2.0, 0.5, 20.0", "ANSWER, LAST, LONGEST = 6000.0, 0.5, 20.0",
     ("test_silent.py::test_a_way_that_stays_open_while_its_database_is_gone[refuses]",)),
    ("PostgreSQL: a replica", "journal_table.py", '        if value_of(base, "SELECT pg_is_in_recovery()"):\n', "        if False:\n",
     ("test_table.py::test_a_writer_meets_a_replica_or_is_forced_out",)),
    ("a table that has lost its last rows", "keeper.py", "reached.sequence > journal.sequence:\n", "reached.sequence > journal.sequence + 1_000_000:\n",
     ("test_table.py::test_a_table_that_has_lost_its_last_rows",)),
    ("a leader's server is killed: rows that it may have written", "history.py", "tuple(lines[len(unknown):]), rows[:wanted])", "tuple(lines[len(unknown):]), ())",
     ("test_restarts.py::test_a_standby_goes_on_after_trouble_at_its_leader[server_killed-one node]",)),
    ("a standby ends with its leader's trouble: other settings", "standby.py", "        except NotYet as error:\n            self._waits.comes(error)\n",
     "        except NotYet as error:\n            raise NoStart(str(error)) from error\n", ("test_standby.py::test_a_standby_that_cannot_go_on",)),
    ("a standby ends with its leader's trouble: another store", "standby.py",
     "            self._waits.comes(error)\n        except Stopped as error:\n            self._stands_still(error)\n",
     "            self._waits.comes(error)\n        except Stopped as error:\n            raise NoStart(str(error)) from error\n", ("test_standby.py::test_a_standby_whose_store_differs_stands_still",)),
)


def tried(clone: Path, patience: float, test: str) -> dict[str, object]:
    """Runs a test, and says how it ended."""
    began = time.monotonic()
    done = subprocess.run(["/usr/bin/python3", "-m", "pytest", "-q", "-x", "-c", "front/pytest.ini", "--rootdir", ".", "-p", "no:cacheprovider",
                           f"{TESTS}/{test}", f"--patience={patience}"], cwd=clone, capture_output=True, text=True)
    lines = [line for line in done.stdout.splitlines() if line.startswith("E ")] or done.stdout.splitlines()[-1:]
    how = {0: "PASSES", 1: "fails"}.get(done.returncode, f"status {done.returncode}: {(done.stderr or done.stdout)[-300:]}")
    return {"test": test, "how": how, "seconds": round(time.monotonic() - began), "said": lines[-1][:200] if lines else ""}


def main() -> int:
    words = argparse.ArgumentParser()
    words.add_argument("clone", type=Path)
    words.add_argument("record", type=Path)
    words.add_argument("word", nargs="*")
    words.add_argument("--patience", type=float, default=60)
    options = words.parse_intermixed_args()
    had = [json.loads(line) for line in options.record.read_text().splitlines()] if options.record.exists() else []
    passed = 0
    for finding, name, text, instead, tests in MENDS:
        if options.word and not any(word in finding for word in options.word):
            continue
        place = options.clone / FRONT / name
        before = place.read_text(encoding="utf-8")
        if before.count(text) != 1:
            print(f"{finding}: what is to go stands {before.count(text)} times in {name}")
            passed += 1
            continue
        for test in tests:
            if any(row["finding"] == finding and row["test"] == test for row in had):
                continue
            try:
                place.write_text(before.replace(text, instead), encoding="utf-8")
                row = {"finding": finding, **tried(options.clone, options.patience, test)}
            finally:
                place.write_text(before, encoding="utf-8")
            passed += row["how"] != "fails"
            print(json.dumps(row), flush=True)
            with options.record.open("a") as record:
                record.write(json.dumps(row) + "\n")
    return 1 if passed else 0


if __name__ == "__main__":
    sys.exit(main())
