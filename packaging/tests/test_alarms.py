# SPDX-License-Identifier: Apache-2.0
"""The rules of packaging/monitoring, by Prometheus' own promtool: each is one that it can read, goes off for figures that are to raise it, and not for others.
They are skipped by name where promtool is not there, wherever that is: apt-get install prometheus."""
from __future__ import annotations

import json
import re
import shutil
import subprocess
from pathlib import Path

import pytest
from roots import TOP

RULES = TOP / "packaging" / "monitoring" / "mserve.rules.yml"
# Of each rule: series of figures, a value each minute as promtool writes them, by which it goes off, and those by which it does not. `a+bxN` is `a`, and N
# further values, each larger by `b`; `_` is a value that is missing. Time begins at 0, in 1970.
FRONT = '{job="mserve", instance="one"}'
ALARMS: dict[str, tuple[dict[str, str], dict[str, str]]] = {
    "MserveDown": ({"mfront_up": "1x5 0x200"}, {"mfront_up": "1x200"}),
    "MserveGone": ({"up": "1x5 0x200", "mfront_up": "1x5"}, {"up": "1x200", "mfront_up": "0x200"}),
    "MserveRestarts": ({"mfront_child_restarts_total": "0x190 1x10"}, {"mfront_child_restarts_total": "3x100 0x100"}),
    "MserveSlowAccount": ({"mfront_account_longest_wait_seconds": "2x200"}, {"mfront_account_longest_wait_seconds": "0.5x200"}),
    "MserveOverQuota": ({"mfront_account_over_quota": "1x200"}, {"mfront_account_over_quota": "0x200"}),
    "MserveQueueGrows": ({"mfront_lines_waiting": "60+1x200"}, {"mfront_lines_waiting": "65x200"}),
    "MserveOneAccountTakesAll": ({"mfront_account_server_seconds_total": "0+40x200"}, {"mfront_account_server_seconds_total": "0+20x200"}),
    "MserveJournalDown": ({"mfront_journal_up": "0x200"}, {"mfront_journal_up": "1x200"}),
    "MserveJournalRoom": ({"mfront_journal_room_bytes": "900000000x200"}, {"mfront_journal_room_bytes": "2000000000x200"}),
    "MserveJournalFills": ({"mfront_journal_room_bytes": "9000000000-10000000x200"}, {"mfront_journal_room_bytes": "90000000000-10000000x200"}),
    "MserveJournalInSpare": ({"mfront_journal_spare_bytes": "16777216x5 0x200"}, {"mfront_journal_spare_bytes": "16777216x200"}),
    "MserveStoreRoom": ({"mfront_store_room_bytes": "900000000x200"}, {"mfront_store_room_bytes": "2000000000x200"}),
    "MserveAuditRoom": ({"mfront_audit_room_bytes": "900000000x200"}, {"mfront_audit_room_bytes": "2000000000x200"}),
    "MserveJournalOpen": ({"mfront_journal_open_lines": "65x200"}, {"mfront_journal_open_lines": "64x200"}),
    "MserveStandbyFault": ({"mfront_standby_fault": "1x200"}, {"mfront_standby_fault": "0x200"}),
    "MserveStandbyBehind": ({"mfront_standby_behind_lines": "1001x200"}, {"mfront_standby_behind_lines": "1000x200"}),
    "MserveStandbysWaiting": ({"mfront_standbys_waiting": "1x200"}, {"mfront_standbys_waiting": "0x200"}),
    "MserveStandbysBehind": ({"mfront_standbys_behind_seconds": "61x200"}, {"mfront_standbys_behind_seconds": "60x200"}),
    "MserveStandbysSilent": ({"mfront_standbys_silent_seconds": "61x200"}, {"mfront_standbys_silent_seconds": "60x200"}),
    # None was verified, with the clock three days on; one was a moment ago.
    "MserveBackupOld": ({"mfront_backup_verified_timestamp_seconds": "0x4320"}, {"mfront_backup_verified_timestamp_seconds": "0+60x4320"}),
    "MserveCertificate": ({"mfront_certificate_expires_timestamp_seconds": "1200000x200"}, {"mfront_certificate_expires_timestamp_seconds": "1300000x200"}),
    "MserveOldLibraries": ({"mfront_libraries_replaced": "1x200"}, {"mfront_libraries_replaced": "0x200"}),
    "MserveAuditDown": ({"mfront_audit_faults_total": "0x195 2x5"}, {"mfront_audit_faults_total": "2x200"}),
    "MserveSignOnAttack": ({"mfront_sign_ons_total": "0x190 200x10"}, {"mfront_sign_ons_total": "0+5x200"}),
}
MINUTES = {"MserveBackupOld": 4320}
LABELS = {"mfront_sign_ons_total": '{job="mserve", instance="one", end="wrong"}'}


def promtool(*words: object) -> subprocess.CompletedProcess[str]:
    """Runs promtool."""
    program = shutil.which("promtool")
    if program is None:
        pytest.skip("promtool is not there: apt-get install prometheus")
    return subprocess.run([program, *map(str, words)], capture_output=True, text=True, timeout=120)


def test_promtool_reads_the_rules_and_each_has_its_figures() -> None:
    done = promtool("check", "rules", RULES)
    assert done.returncode == 0, done.stdout + done.stderr
    assert re.findall(r"alert: (\w+)", RULES.read_text(encoding="utf-8")) == list(ALARMS)


@pytest.mark.parametrize("alarm", ALARMS)
def test_an_alarm_goes_off_for_its_figures_alone(alarm: str, tmp_path: Path) -> None:
    """It does for the first, once they have lasted, and does not for the others."""
    for figures, goes_off in zip(ALARMS[alarm], (True, False), strict=True):
        path = tmp_path / f"{goes_off}.yml"
        # JSON is YAML too.
        path.write_text(json.dumps({"rule_files": [str(RULES)], "evaluation_interval": "1m", "tests": [{
            "interval": "1m", "input_series": [{"series": name + LABELS.get(name, FRONT), "values": values} for name, values in figures.items()],
            "promql_expr_test": [{"expr": f'count(ALERTS{{alertname="{alarm}", alertstate="firing"}})', "eval_time": f"{MINUTES.get(alarm, 200)}m",
                                  "exp_samples": [{"labels": "{}", "value": 1}] if goes_off else []}]}]}))
        done = promtool("test", "rules", path)
        assert done.returncode == 0, f"{figures}: {done.stdout}{done.stderr}"
