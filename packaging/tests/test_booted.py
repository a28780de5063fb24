# SPDX-License-Identifier: Apache-2.0
"""The package under systemd: installed by the commands of docs/OPERATING.md into a root whose first process it is (roots.py). Each unit starts, is
reloaded, comes back after a kill with all that was answered, and ends in order; a standby that is a service takes over, and a gate serves its islands.

That takes root's rights; without them the tests are skipped by name, but where the variable CI is true: there that is a failure. They are skipped wherever
the system gives no control group, or does not let systemd be a first process."""
from __future__ import annotations

import json
import re
import shlex
import shutil
from collections.abc import Iterator

import pytest
from roots import PASSWORD, PYTHON, TOP, Booted, commands, missed
from test_package import removed

STORE, JOURNAL, BACKUP = "/var/lib/mserve/store", "/var/lib/mserve/journal", "/var/lib/mserve/backup"
CALLS = "curl -sf --cacert /etc/mserve/certificate.pem"
pytestmark = pytest.mark.long


class Served:
    """A root in which a service serves."""

    def __init__(self, root: Booted) -> None:
        self.root = root
        self.before = root.changed()
        self.installed = False

    def install(self) -> None:
        """Runs the page's commands, each as it stands; the answer of the last one may take a moment. A container may say that packages start and stop no
        services: this is none."""
        self.root.run("rm -f /usr/sbin/policy-rc.d")
        for command in commands():
            if command.startswith("curl"):
                self.awaits()
            told = self.root.run(command, f"{PASSWORD}\n" if " user add " in command else "")
        assert json.loads(told)["child"] == "up"
        self.token = self.root.run("mfront token add ada").strip()
        self.installed = True

    def awaits(self, port: int = 8443) -> None:
        """Waits for the answer of what serves at a port."""
        self.root.comes(f"curl -skf https://localhost:{port}/health", f"an answer at port {port}")

    def line(self, line: str, port: int = 8443) -> str:
        """The rest of what a line of ada's is answered, or its code. The token may not be known yet, and the server may start just now."""
        def call(line: str) -> str:
            body = shlex.quote(json.dumps({"line": line}))
            return f"{CALLS} -H 'Authorization: Bearer {self.token}' -H 'Content-Type: application/json' -d {body} https://localhost:{port}/line"
        self.root.comes(f"""{call("W 1")} | grep -q '"rest": "1"'""", f"a line that is answered at port {port}")
        record = json.loads(self.root.run(call(line)))
        return record["code"] or record["rest"]

    def shows(self, unit: str, name: str) -> str:
        """A property of a unit, as systemd has it."""
        return self.root.run(f"systemctl show --value -p {name} {unit}").strip()

    def main(self, unit: str) -> int:
        """The process of a unit that systemd started."""
        return int(self.shows(unit, "MainPID"))

    def killed(self, unit: str) -> None:
        """Kills what systemd started for a unit, and waits until it has been started again."""
        before = self.main(unit)
        self.root.run(f"kill -9 {before}")
        self.root.comes(f"main=$(systemctl show --value -p MainPID {unit}) && [ $main != 0 ] && [ $main != {before} ]", f"{unit}, started again")
        assert self.shows(unit, "NRestarts") != "0"

    def has(self, text: str, path: str) -> None:
        """Writes a text of several lines to a file, for the service's user to read."""
        self.root.run(f"mkdir -p $(dirname {path}) && cat > {path} && chmod a+r {path}", text)

    def keeps_a_journal(self) -> None:
        """Has the front keep one, and starts it again."""
        if not self.root.succeeds("grep -q '^.journal.' /etc/mserve/front.toml"):
            self.root.run("cat >> /etc/mserve/front.toml", f'\n[journal]\nfolder = "{JOURNAL}"\nbackup = "{BACKUP}"\n')
            self.root.run("systemctl restart mfront")
        self.awaits()


@pytest.fixture(scope="module")
def booted(tmp_path_factory: pytest.TempPathFactory) -> Iterator[Booted]:
    """A root that systemd has started."""
    for name in ("unshare", "nsenter", "ip", "curl", "openssl", "systemctl"):
        if shutil.which(name) is None:
            missed(f"{name} is not there: apt-get install util-linux iproute2 curl openssl systemd")
    one = Booted(tmp_path_factory.mktemp("booted"))
    yield one
    one.end()


@pytest.fixture(scope="module")
def installed(booted: Booted) -> Served:
    """The package there, with a front that serves."""
    served = Served(booted)
    served.install()
    return served


@pytest.fixture
def served(installed: Served) -> Served:
    """The same, with the front of the page alone running, and no unit that has failed."""
    installed.root.run("systemctl stop mgate mserve && systemctl reset-failed && systemctl start mfront")
    installed.awaits()
    return installed


def test_the_page_from_nothing(served: Served) -> None:
    """What runs is confined as its unit says, comes with the machine, and answers."""
    assert served.root.run("systemctl is-enabled mfront && systemctl is-active mfront") == "enabled\nactive\n"
    assert served.line("S ^PAGE=1+2*3 W ^PAGE") == "9"
    main = served.main("mfront")
    [child] = served.root.run(f"cat /proc/{main}/task/{main}/children").split()
    for process in (main, int(child)):
        status = dict(line.split(":\t", 1) for line in served.root.run(f"cat /proc/{process}/status").splitlines())
        user = served.root.run("id -u mserve").strip()
        assert (status["Uid"].split(), int(status["CapEff"], 16), status["NoNewPrivs"], status["Seccomp"]) == ([user] * 4, 0, "1", "2")


def test_the_log_is_opened_again(served: Served) -> None:
    """By a reload, and by what the package has logrotate do."""
    log, main = "/var/log/mserve/audit.log", served.main("mfront")
    rotated = re.search(r"^/var/log/.*?\n    postrotate\n(.*?)\n    endscript$", (TOP / "packaging/deb/logrotate").read_text(), re.MULTILINE | re.DOTALL)[1]
    for command in ("systemctl reload mfront", rotated):
        served.root.run(f"mv {log} {log}.1 && {command}")
        served.line("W 1")
        served.root.comes(f"test -s {log}", "a new audit log")
        assert served.root.run(f"stat -c '%U %a' {log}") == "mserve 600\n"
    assert served.main("mfront") == main
    reloads_at_once(served, "mfront")


def reloads_at_once(served: Served, unit: str) -> None:
    """A reload comes as soon as a restart is done, when Python has hardly started. It ends nothing."""
    for _ in range(5):
        served.root.run(f"systemctl restart {unit} && systemctl reload {unit}")
    assert (served.shows(unit, "ActiveState"), served.shows(unit, "NRestarts")) == ("active", "0")


def test_an_upgrade_restarts_what_runs(served: Served) -> None:
    """And starts nothing that did not run."""
    main = served.main("mfront")
    assert served.line("S ^BEFORE=1 W ^BEFORE") == "1"
    served.root.run("apt-get install -y --reinstall ./packaging/out/mserve_*_amd64.deb")
    assert served.main("mfront") not in (0, main) and served.main("mserve") == served.main("mgate") == 0
    assert served.line("W ^BEFORE") == "1"


def test_a_front_with_a_journal_comes_back(served: Served) -> None:
    """Its server is killed, then itself, and then it is restarted: all that was answered is there, and the journal is whole."""
    served.keeps_a_journal()
    assert served.line("S ^KEPT=1 W ^KEPT") == "1"
    main = served.main("mfront")
    served.root.run(f"kill -9 $(cat /proc/{main}/task/{main}/children)")
    assert served.line("S ^KEPT=^KEPT+1 W ^KEPT") == "2"
    assert served.main("mfront") == main
    served.killed("mfront")
    assert served.line("S ^KEPT=^KEPT+1 W ^KEPT") == "3"
    served.root.run("systemctl restart mfront")
    assert served.line("S ^KEPT=^KEPT+1 W ^KEPT") == "4"
    served.root.run(f"runuser -u mserve -- mjournal --folder {JOURNAL} verify")
    served.root.run("systemctl stop mfront")
    assert (served.shows("mfront", "Result"), served.shows("mfront", "ExecMainStatus")) == ("success", "0")


def test_a_night(served: Served) -> None:
    """The timer is there, and what it starts takes a snapshot and verifies it, as the service's user; after the next night there are two."""
    root = served.root
    served.keeps_a_journal()
    root.run("systemctl enable --now mserve-backup@front.timer")
    assert "mserve-backup@front.timer" in root.run("systemctl list-timers --no-pager")
    before = int(root.run(f"ls {BACKUP} 2>/dev/null | grep -c '^0' || true"))
    for number in (1, 2):
        assert served.line(f"S ^NIGHT={number} W ^NIGHT") == str(number)
        root.run("systemctl start mserve-backup@front")
        assert int(root.run(f"ls {BACKUP} | grep -c '^0'")) == before + number
    assert root.run(f"stat -c '%U %a' {BACKUP}/verified.json").startswith("mserve ")
    root.comes(f"{CALLS} https://localhost:8443/metrics | grep -q '^mfront_backup_verified_timestamp_seconds 1'", "a front that knows of it")


def test_a_standby_that_is_a_service_takes_over(served: Served) -> None:
    """By the page's commands; then it leads, also after a kill, and the one that led stands by."""
    root = served.root
    served.keeps_a_journal()
    assert served.line("S ^LED=1 W ^LED") == "1"
    # On another machine the unit is mfront's own.
    root.run("cp /lib/systemd/system/mfront.service /etc/systemd/system/mstandby.service")
    settings = root.run("cat /etc/mserve/front.toml").replace(STORE, "/var/lib/mserve/standby/store").replace("8443", "9443")
    settings = settings.replace("/var/lib/mserve/admin.socket", "/var/lib/mserve/standby.socket").replace("audit.log", "standby.log")
    settings = settings.replace(f'backup = "{BACKUP}"\n', "")
    served.has(settings.replace("[journal]\n", '[journal]\ncontrol = "/var/lib/mserve/standby.control"\n'), "/etc/mserve/standby.toml")
    as_user = "runuser -u mserve --"
    root.run(f"{as_user} mkdir -p /var/lib/mserve/backup /var/lib/mserve/standby && {as_user} mbackup take /var/lib/mserve/backup --end-sessions && "
             f"{as_user} mbackup restore $(ls -d /var/lib/mserve/backup/0* | tail -n 1) {STORE.replace('/store', '/standby/store')}")
    follows(served, "mstandby", "standby", "--follow ")
    root.run("systemctl start mstandby")
    root.comes(f"{as_user} mfront status --config /etc/mserve/standby.toml", "a standby that stands by")
    assert served.line("S ^LED=2 W ^LED") == "2"
    root.run("systemctl stop mfront")
    root.run(f"{as_user} mfront promote --wait 60 --config /etc/mserve/standby.toml")
    assert served.line("S ^LED=^LED+1 W ^LED", 9443) == "3"
    follows(served, "mstandby", "standby", "")
    served.killed("mstandby")
    assert served.line("S ^LED=^LED+1 W ^LED", 9443) == "4"
    follows(served, "mfront", "front", "--follow ")
    root.run("systemctl start mfront")
    root.comes(f"{as_user} mfront status --config /etc/mserve/front.toml", "the one that led before, which stands by")
    root.run("systemctl stop mstandby")
    root.run(f"{as_user} mfront promote --wait 60 --config /etc/mserve/front.toml")
    assert served.line("S ^LED=^LED+1 W ^LED") == "5"
    root.run("rm -r /etc/systemd/system/mfront.service.d /etc/systemd/system/mstandby.service* && systemctl daemon-reload")


def follows(served: Served, unit: str, name: str, words: str) -> None:
    """Gives a unit's command other words, as `systemctl edit` does."""
    command = f"/usr/bin/mfront {words}--config /etc/mserve/{name}.toml"
    served.has(f"[Service]\nExecStart=\nExecStart={command}\n", f"/etc/systemd/system/{unit}.service.d/override.conf")
    served.root.run("systemctl daemon-reload")


def test_a_gate_of_one_machine_serves_its_islands(served: Served) -> None:
    """By the page's commands: the gate is killed and restarted, a customer comes, and at the end nothing is left that runs."""
    root = served.root
    root.run(r"sed -i 's/^port = 8443/&\nlines_port = 8444/' /etc/mserve/front.toml")
    assert served.line("S ^SPLIT=1 W ^SPLIT") == "1"
    root.run("systemctl stop mfront")
    root.run("mgate init /etc/mserve/settings.toml /var/lib/mserve/store --front /etc/mserve/front.toml")
    root.run("systemctl disable mfront && systemctl enable --now mgate")
    assert served.line("S ^SPLIT=^SPLIT+1 W ^SPLIT") == "2"
    served.killed("mgate")
    assert served.line("S ^SPLIT=^SPLIT+1 W ^SPLIT") == "3"
    served.has('[[account]]\nname = "ANNEX"\nterminals = [1]\nsteps = 1000\n', "/etc/mserve/ANNEX.toml")
    root.run("mgate place ANNEX /etc/mserve/ANNEX.toml one")
    root.comes("mgate list | grep -q 'ANNEX.*here'", "an island that is served")
    reloads_at_once(served, "mgate")
    assert served.line("S ^SPLIT=^SPLIT+1 W ^SPLIT") == "4"
    root.run("systemctl start mserve-backup@machine")
    assert root.run("ls /var/lib/mserve/islands/*/backup/verified.json | wc -l") == "2\n"
    root.run("systemctl stop mgate")
    assert served.shows("mgate", "Result") == "success"
    assert not root.succeeds("pgrep -u mserve")
    root.run("systemctl disable mgate && systemctl enable mfront")


def test_a_port_that_is_taken_for_a_while(served: Served) -> None:
    """A front is started again until it has it: systemd would have given up after five attempts in ten seconds, here after one."""
    root = served.root
    root.run("systemctl stop mfront")
    served.has("[Unit]\nStartLimitBurst=1\n", "/etc/systemd/system/mfront.service.d/burst.conf")
    root.run(f"systemctl daemon-reload && systemd-run --unit=another {PYTHON} -m http.server 8443")
    root.comes("curl -sf http://localhost:8443/ >/dev/null", "another that has the port")
    root.run("systemctl start mfront")
    root.comes("[ $(systemctl show --value -p NRestarts mfront) -ge 2 ]", "a second attempt")
    root.run("systemctl stop another")
    assert served.line("W 6*7") == "42"
    root.run("rm -r /etc/systemd/system/mfront.service.d && systemctl daemon-reload")


def test_the_server_alone_is_joined(served: Served) -> None:
    root = served.root
    root.run("systemctl stop mfront && systemctl start mserve")
    root.comes("mshell --plain 9000 1 </dev/null", "the server at its port")
    settings = re.sub(r"(?m)^store = .*", "join = 9000", root.run("cat /etc/mserve/front.toml"))
    root.run("cp /etc/mserve/front.toml /root/front.toml")
    try:
        root.run("cat > /etc/mserve/front.toml", settings.partition("\n[journal]")[0])
        root.run("systemctl start mfront")
        assert served.line("S ^JOINED=1 W ^JOINED") == "1"
        served.killed("mserve")
        assert served.line("S ^JOINED=^JOINED+1 W ^JOINED") == "2"
    finally:
        root.run("systemctl stop mfront mserve && cp /root/front.toml /etc/mserve/front.toml")


def test_it_is_removed(served: Served) -> None:
    """What runs is stopped, and nothing is left but the data and what an operator has written: no service is enabled any more."""
    served.root.run("systemctl enable --now mserve-backup@front.timer")
    assert served.root.run("systemctl is-enabled mfront") == "enabled\n"
    removed(served.root, served.before, re.compile(r"/(?:(?:var/lib|var/log|etc)/mserve(?:/|$)|(?:var/)?tmp/systemd-private-)"))
    assert not served.root.succeeds("pgrep -u mserve")
