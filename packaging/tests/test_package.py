# SPDX-License-Identifier: Apache-2.0
"""The Debian package: made twice alike, without an error of lintian, installed into a root of its own by the commands of docs/OPERATING.md, used
there, and removed without a trace but the data.

The root is this system with a layer of its own over it (overlayfs), in namespaces of its own for mounts and the network: dpkg and the package's
scripts run as they do anywhere. That takes root's rights; without them the tests are skipped by name, but where the variable CI is true: there
that is a failure. There is no systemd in it: what it would run is read from the unit, and run as the unit's user. `test_booted.py` has systemd."""
from __future__ import annotations

import json
import os
import re
import shlex
import shutil
import subprocess
import time
from collections.abc import Iterator
from pathlib import Path

import pytest
from roots import PASSWORD, PATIENCE, PYTHON, TOP, Root, commands, made, missed

SERVICES = ("mserve.service", "mfront.service", "mgate.service", "mserve-backup@.service")
UNITS = (*SERVICES, "mserve-backup@.timer")
# The highest exposure, of 10, that `systemd-analyze security` may find.
MOST_EXPOSURE = 2.0
DATA = re.compile(r"/(?:var/lib/mserve|var/log/mserve|etc/mserve/(?:key|certificate)\.pem|etc/mserve$)")


@pytest.fixture(scope="module")
def package(tmp_path_factory: pytest.TempPathFactory) -> Path:
    """The package of this tree."""
    return made(tmp_path_factory.mktemp("package"))


@pytest.fixture(scope="module")
def root(tmp_path_factory: pytest.TempPathFactory) -> Iterator[Root]:
    """A root of its own, in which nothing is installed yet."""
    for name in ("unshare", "nsenter", "ip", "curl", "openssl", "dpkg-deb", "systemd-analyze"):
        if shutil.which(name) is None:
            missed(f"{name} is not there: apt-get install util-linux iproute2 curl openssl dpkg systemd")
    if subprocess.run([PYTHON, "-c", "import seccomp"], capture_output=True).returncode:
        missed("seccomp is not there: apt-get install python3-seccomp")
    one = Root(tmp_path_factory.mktemp("root"))
    yield one
    one.end()


def started(root: Root, unit: str) -> subprocess.Popen[bytes]:
    """What systemd would start for a unit, as the unit's user, in its folder, and under what the unit allows (confined.py)."""
    text = (TOP / "packaging" / unit).read_text(encoding="utf-8")
    keys = dict(re.findall(r"^(\w+)=(.*)$", text, re.MULTILINE))
    # Where the user of the unit can read it, wherever this tree is.
    root.run("mkdir -p /opt/confined && cp packaging/tests/confined.py /opt/confined/")
    root.run(f"cp packaging/{unit} /opt/confined/unit && chmod -R a+rX /opt/confined")
    words = f"cd {keys['WorkingDirectory']} && umask {keys['UMask']} && exec setpriv --reuid {keys['User']} --regid {keys['Group']} --clear-groups " \
            f"--no-new-privs --bounding-set=-all --inh-caps=-all {PYTHON} -B /opt/confined/confined.py /opt/confined/unit {keys['ExecStart']}"
    before = keys["ExecStartPre"].removeprefix("-")
    assert keys["ExecStartPre"].startswith("-") and ": good: " in root.run(words.removesuffix(keys["ExecStart"]) + before)
    return subprocess.Popen(root.words(words), stdin=subprocess.DEVNULL)


def test_package_is_the_same_each_time(package: Path, tmp_path: Path) -> None:
    assert made(tmp_path).read_bytes() == package.read_bytes()


def test_lintian_finds_no_error(package: Path) -> None:
    if shutil.which("lintian") is None:
        missed("lintian is not there: apt-get install lintian")
    done = subprocess.run(["lintian", "--allow-root", "--fail-on", "error", package], capture_output=True, text=True, timeout=300)
    assert done.returncode == 0 and not re.search(r"^E: ", done.stdout, re.MULTILINE), done.stdout


def test_package_has_each_command_its_page_and_the_units(package: Path) -> None:
    listed = subprocess.run(["dpkg-deb", "--contents", package], capture_output=True, text=True, check=True).stdout
    for name in ("mserve", "mislands", "mfront", "mjournal", "mbackup", "mgate", "mshell", "mroutine", "mglobal", "misland", "mserve-settings"):
        assert f" ./usr/bin/{name}" in listed
    pages = [page for folder in ("docs", "clients/man", "front/man") for page in (TOP / folder).glob("*.1")]
    names = [page.name.replace("msettings", "mserve-settings") for page in pages]
    assert len(names) >= 9 and all(f" ./usr/share/man/man1/{name}.gz\n" in listed for name in names)
    for path in (*(f"lib/systemd/system/{unit}" for unit in UNITS), "usr/lib/mserve/mserve", "usr/share/bash-completion/completions/mserve",
                 "etc/mserve/front.toml",
                 "usr/share/mserve/front/page/index.html", "usr/share/mserve/docs/LANGUAGE.md", "usr/share/doc/mserve/docs/LANGUAGE.md"):
        assert f" ./{path}\n" in listed
    assert "__pycache__" not in listed and "/tests/" not in listed
    assert not re.search(r"^(?!l)\S+ (?!root/root)", listed, re.MULTILINE)


def test_package_has_each_document_that_its_readers_are_led_to(package: Path) -> None:
    """Those that man pages and the pages for users and operators name, wherever in them."""
    listed = subprocess.run(["dpkg-deb", "--contents", package], capture_output=True, text=True, check=True).stdout
    pages = [TOP / "docs" / f"{name}.md" for name in ("GUIDE", "LANGUAGE", "OPERATING")]
    readers = [*TOP.glob("*/man/*.1"), *TOP.glob("docs/*.1"), TOP / "SECURITY.md", *pages]
    named = {name for page in readers for name in re.findall(r"(?:docs/|\]\()([A-Z]+)\.md", page.read_text(encoding="utf-8"))}
    assert {"OPERATING", "TEXT"} <= named
    assert [name for name in sorted(named) if f" ./usr/share/doc/mserve/docs/{name}.md\n" not in listed] == []


def analyze(*words: str | Path) -> subprocess.CompletedProcess[str]:
    """Runs systemd-analyze."""
    if shutil.which("systemd-analyze") is None:
        missed("systemd-analyze is not there: apt-get install systemd")
    return subprocess.run(["systemd-analyze", *words], capture_output=True, text=True, timeout=60)


@pytest.mark.parametrize("unit", UNITS)
def test_systemd_knows_each_word_of_a_unit(unit: str, tmp_path: Path) -> None:
    """The package is not installed here, so /bin/true stands for its commands. A word that is none is found. A template has a name."""
    of_timer, unit = unit.endswith(".timer"), unit.replace("@.", "@front.")
    if of_timer:
        (tmp_path / unit).with_suffix(".service").write_text("[Service]\nExecStart=/bin/true\n", encoding="utf-8")
    text = re.sub(r"^(Exec\w+=-?)/usr/\S+", r"\1/bin/true", (TOP / "packaging" / unit.replace("@front.", "@.")).read_text(encoding="utf-8"), flags=re.MULTILINE)

    def verified(written: str) -> tuple[int, str]:
        (tmp_path / unit).write_text(written, encoding="utf-8")
        done = analyze("verify", "--man=no", "--recursive-errors=no", tmp_path / unit)
        return done.returncode, done.stdout + done.stderr
    assert verified(text) == (0, "")
    assert "LimitMemory" in verified(re.sub(r"^\[(Service|Timer)\]\n", r"[\1]\nLimitMemory=4G\n", text, flags=re.MULTILINE))[1]


@pytest.mark.skipif(os.geteuid() != 0, reason="root alone mounts /proc")
@pytest.mark.parametrize("unit", ["mfront.service", "mgate.service"])
def test_a_unit_lets_a_front_know_the_start_of_the_machine(unit: str) -> None:
    """A front that keeps a journal asks which start of the machine this is: without that, its unit kept it from starting."""
    found = re.search(r"^ProcSubset=(\w+)$", (TOP / "packaging" / unit).read_text(encoding="utf-8"), re.MULTILINE)
    options = f"-o subset={found[1]}" if found and found[1] != "all" else ""
    words = f"mount -t proc {options} proc /proc && exec {PYTHON} -c 'from mserve_front import witness; print(witness.boot_of_machine())'"
    done = subprocess.run(["unshare", "--mount", "--propagation", "private", "sh", "-c", words], env=os.environ | {"PYTHONPATH": str(TOP / "front")},
                          capture_output=True, text=True)
    assert done.stdout.strip() == Path("/proc/sys/kernel/random/boot_id").read_text().strip(), done.stderr


@pytest.mark.parametrize("unit", SERVICES)
def test_sandbox_of_a_unit(unit: str) -> None:
    done = analyze("security", "--offline=yes", "--no-pager", TOP / "packaging" / unit)
    found = re.search(r"Overall exposure level for \S+: ([0-9.]+)", done.stdout)
    assert found and float(found[1]) <= MOST_EXPOSURE, done.stdout + done.stderr


@pytest.mark.long
def test_from_nothing_to_a_user_and_back(root: Root) -> None:
    """Each command of the page is run; then a user signs on over TLS with the page's own calls, the clients run, and all but the data goes."""
    before = root.changed()
    front, seen = None, 0
    try:
        for command in commands():
            if command.startswith("systemctl enable"):
                front = started(root, f"{command.split()[-1]}.service")
                awaited(root)
            elif not command.startswith("systemctl"):
                told = root.run(command, f"{PASSWORD}\n" if " user add " in command else "")
                seen += 1
        assert seen == 7 and json.loads(told)["child"] == "up"
        used(root)
        may_do_little(front.pid, root.run("id -u mserve").strip())
    finally:
        ended(front)
    joined(root)
    removed(root, before)


def ended(*processes: subprocess.Popen[bytes] | None) -> None:
    """Ends processes as systemd does."""
    for process in processes:
        if process is not None:
            process.terminate()
            assert process.wait(PATIENCE) in (0, -15)


def joined(root: Root) -> None:
    """The server runs by its own unit: mshell speaks to it over the same store, and then the front joins it."""
    server, front = started(root, "mserve.service"), None
    try:
        end = time.monotonic() + PATIENCE
        while subprocess.run(root.words("mshell --plain 9000 1 </dev/null"), capture_output=True).returncode:
            assert time.monotonic() < end, "the server does not answer"
            time.sleep(0.2)
        assert root.run("mshell 9000 1", "S ^ALONE=1+2*3 W ^ALONE\n") == "9\n"
        root.run("sed -i 's/^store = .*/join = 9000/' /etc/mserve/front.toml")
        front = started(root, "mfront.service")
        awaited(root)
    finally:
        ended(front, server)


def awaited(root: Root) -> None:
    """Waits for the front's answer."""
    end = time.monotonic() + PATIENCE
    while subprocess.run(root.words("curl -skf https://localhost:8443/health"), capture_output=True).returncode:
        assert time.monotonic() < end, "the front does not answer"
        time.sleep(0.2)


def may_do_little(front: int, user: str) -> None:
    """The front and the server that it has started are the user's, and have no rights of root's."""
    [child] = Path(f"/proc/{front}/task/{front}/children").read_text(encoding="ascii").split()
    for process in (front, child):
        status = dict(line.split(":\t", 1) for line in Path(f"/proc/{process}/status").read_text(encoding="utf-8").splitlines())
        assert (status["Uid"].split(), int(status["CapEff"], 16), status["NoNewPrivs"], status["Seccomp"]) == ([user] * 4, 0, "1", "2")


def used(root: Root) -> None:
    """Signs on as the page does, gets the page, and runs the commands of the package."""
    body = shlex.quote(json.dumps({"user": "ada", "password": PASSWORD}))
    curl = "curl -sf --cacert /etc/mserve/certificate.pem -c /tmp/cookies -b /tmp/cookies"
    record = json.loads(root.run(f"{curl} -H 'Content-Type: application/json' -d {body} https://localhost:8443/signon"))
    assert (record["user"], record["account"], record["volatile"]) == ("ada", "OFFICE", False)
    assert root.run(f"{curl} https://localhost:8443/page/main.js") == (TOP / "front" / "page" / "main.js").read_text(encoding="utf-8")
    assert root.run("mserve run --settings /etc/mserve/settings.toml --store memory", "1 WRITE 1+2*3\n") == "1-9\n1.\n"
    assert root.run("mserve --version").startswith(f"mserve {(TOP / 'VERSION').read_text().strip()}\nsources ")
    for words in ("--help", "help", "run --help"):
        told = "/usr/lib/mserve/mserve " + words
        assert root.run(f"mserve {words} 2>/dev/null | cat") == root.run(f"{told} 2>&1 || true")
        assert root.run(f"mserve {words} >/dev/null 2>&1 || echo $?") == "2\n"
    assert root.run("mserve-settings /etc/mserve/settings.toml --store /var/lib/mserve/none").startswith("/etc/mserve/settings.toml: good: 1 account")
    for name in ("mshell", "mroutine", "mglobal", "misland", "mfront", "mjournal", "mbackup", "mgate"):
        assert f"usage: {name}" in root.run(f"{name} --help")
    assert root.run("find /usr/share/mserve -name '*.pyc' | wc -l") == root.run("find /usr/share/mserve -name '*.py' | wc -l") != "0\n"
    assert root.run("mislands </etc/mserve/settings.toml") == "OFFICE\n"
    assert root.run("misland list /etc/mserve/settings.toml").startswith("OFFICE: 1 account, ")
    assert "OFFICE" in root.run("mfront user list")
    modes = root.run("stat -c '%U %a' /var/lib/mserve /var/log/mserve /var/lib/mserve/users.json /var/log/mserve/audit.log").splitlines()
    assert modes == ["mserve 700", "mserve 700", "mserve 600", "mserve 600"]
    browsed(root)


BROWSE = """
import sys
sys.path[:0] = ["front/tests", "front", "clients", "tools"]
from page_driver import Browser
browser = Browser()
try:
    browser.driver.get("https://localhost:8443/")
    browser.sign_on("ada", sys.argv[1])
    print(browser.line('S ^HERE="by the package" W ^HERE'))
    browser.sign_off()
finally:
    browser.driver.quit()
"""


def browsed(root: Root) -> None:
    """Signs on in a browser, if there is one; the tests of the page say whether that is allowed to be missing."""
    if shutil.which("chromium") and shutil.which("chromedriver"):
        assert root.run(f"{PYTHON} -B -c {shlex.quote(BROWSE)} {shlex.quote(PASSWORD)}") == "by the package\n"


def removed(root: Root, before: set[str], data: re.Pattern[str] = DATA) -> None:
    """Removes the package, and looks for what it left besides data."""
    root.run("apt-get purge -y mserve")
    assert "mserve" not in root.run("dpkg-query -W -f '${Package}\\n'").split()
    ours = {path for path in root.changed() - before if re.search(r"mserve|mfront|mjournal|mbackup|mgate|mshell|mroutine|mglobal|misland", path)
            and not path.startswith(str(TOP))}
    assert {path for path in ours if not data.match(path)} == set()
    assert {"/var/lib/mserve/store", "/var/lib/mserve/users.json", "/var/log/mserve/audit.log", "/etc/mserve/key.pem"} <= ours
