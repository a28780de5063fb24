# SPDX-License-Identifier: Apache-2.0
"""How the tests of the page run: headless Chromium at a front over TLS with a store in a file.

Without Chromium the tests are skipped by name, but where the variable CI is true: there that is a failure. The browsers leave pictures in
`front/tests/pictures`, which git ignores."""
from __future__ import annotations

import os
import shutil
import time
from collections.abc import Callable, Iterator
from pathlib import Path
from typing import Any

import pytest
from front import FRONT, MIXED, PASSWORD, Front

PAGE = FRONT / "page"
PICTURES = FRONT / "tests" / "pictures"
# Seconds after which what should be there is missed.
PATIENCE = 60.0


def missed(what: str, packages: str) -> None:
    """Skips a test for something that is not there, or fails it where continuous integration has to have that."""
    text = f"{what} is not there: apt-get install {packages}"
    if os.environ.get("CI") == "true":
        pytest.fail(text)
    pytest.skip(text)


def require_chromium() -> None:
    """Skips or fails without Chromium, its driver and selenium."""
    if not shutil.which("chromium") or not shutil.which("chromedriver"):
        missed("Chromium", "chromium chromium-driver")
    try:
        import selenium  # noqa: F401
    except ModuleNotFoundError:
        missed("selenium", "python3-selenium")


def awaited(found: Callable[[], Any], what: str) -> Any:
    """What a call finds, as soon as it finds something."""
    end = time.monotonic() + PATIENCE
    while True:
        value = found()
        if value:
            return value
        assert time.monotonic() < end, f"missed: {what}"
        time.sleep(0.05)


def is_shown(element: Any) -> bool:
    """Whether an element is shown. One that the page took away since it was found is not."""
    from selenium.common.exceptions import StaleElementReferenceException

    try:
        return element.is_displayed()
    except StaleElementReferenceException:
        return False


def clicked(found: Callable[[], Any]) -> None:
    """Clicks on what is found, and finds it again if the page puts another in its place just then."""
    from selenium.common.exceptions import StaleElementReferenceException

    def is_clicked() -> bool:
        try:
            found().click()
        except StaleElementReferenceException:
            return False
        return True
    awaited(is_clicked, "an element that stays where it is")


@pytest.fixture(scope="module")
def page_front(certificate: tuple[Path, Path], tmp_path_factory: pytest.TempPathFactory) -> Iterator[Front]:
    """A front for all tests of a module. Its accounts have what the tests before have left. LAB has language 1."""
    require_chromium()
    folder = tmp_path_factory.mktemp("page")
    (folder / "mixed.toml").write_text(MIXED)
    made = Front(folder, certificate, settings=folder / "mixed.toml", store="store.db")
    yield made
    made.stop()


class Browser:
    """A browser at the page. Elements are named by selectors of CSS."""

    def __init__(self) -> None:
        from selenium import webdriver
        from selenium.webdriver.chrome.service import Service

        options = webdriver.ChromeOptions()
        for word in ("--headless=new", "--no-sandbox", "--disable-gpu", "--disable-dev-shm-usage", "--ignore-certificate-errors", "--lang=en"):
            options.add_argument(word)
        options.binary_location = shutil.which("chromium")
        options.set_capability("goog:loggingPrefs", {"browser": "ALL"})
        self.driver = webdriver.Chrome(options=options, service=Service(shutil.which("chromedriver")))
        self.driver.set_script_timeout(PATIENCE)

    def shaped(self, width: int, height: int, scheme: str) -> None:
        """Gives the page a size, and light or dark."""
        self.driver.execute_cdp_cmd("Emulation.setDeviceMetricsOverride", {"width": width, "height": height, "deviceScaleFactor": 1, "mobile": False})
        features = [{"name": "prefers-color-scheme", "value": scheme}, {"name": "prefers-reduced-motion", "value": "reduce"}]
        self.driver.execute_cdp_cmd("Emulation.setEmulatedMedia", {"features": features})

    def all(self, selector: str) -> list[Any]:
        """The elements that are shown."""
        return [found for found in self.driver.find_elements("css selector", selector) if is_shown(found)]

    def one(self, selector: str) -> Any:
        """The first element, once it is shown."""
        return awaited(lambda: self.all(selector), selector)[0]

    def texts(self, selector: str) -> list[str]:
        """The texts of elements that are shown."""
        return self.run("return [...document.querySelectorAll(arguments[0])].filter((one) => one.checkVisibility()).map((one) => one.textContent)", selector)

    def click(self, selector: str) -> None:
        """Clicks on an element."""
        clicked(lambda: self.one(selector))

    def keys(self, *keys: str) -> None:
        """Types where the focus is."""
        self.driver.switch_to.active_element.send_keys(*keys)

    def run(self, script: str, *words: object) -> Any:
        """Runs a script in the page."""
        return self.driver.execute_script(script, *words)

    def module(self, script: str, *words: object) -> Any:
        """What the body of an asynchronous function gives; an error in it is this test's."""
        whole = f"const done = arguments[arguments.length - 1]; (async (...given) => {{ {script} }})(...arguments).then((value) => done({{ value }}), " \
                "(error) => done({ error: String(error.stack ?? error) }));"
        given = self.driver.execute_async_script(whole, *words)
        assert "error" not in given, given.get("error")
        return given.get("value")

    def until(self, told: Callable[[], Any], what: str) -> Any:
        """Waits until something holds."""
        return awaited(told, what)

    def sign_on(self, user: str, password: str = PASSWORD) -> None:
        """Signs on, and waits for the terminal's connection."""
        self.one("#user").clear()
        self.one("#user").send_keys(user)
        self.one("#password").send_keys(password + "\n")
        self.one("#connection.open")

    def sign_off(self) -> None:
        """Signs off."""
        self.click("#sign-off")
        self.one("#user")

    def part(self, name: str) -> None:
        """Goes to a part of the page."""
        if self.all(f"#tab-{name}"):
            self.click(f"#tab-{name}")
        self.one(f"#{name}")

    def line(self, text: str) -> str:
        """Runs a line in the terminal: what its reply shows."""
        self.part("terminal")
        count = len(self.texts("#log .entry"))
        self.one("#line").send_keys(text + "\n")
        awaited(lambda: len(self.texts("#log .entry")) > count and not self.texts("#log .pending"), f"a reply to {text}")
        return self.texts("#log .entry .reply")[-1]

    def notice(self, text: str) -> None:
        """Waits for a message, and closes all."""
        awaited(lambda: any(text in found for found in self.texts(".notice p")), f"the message {text!r} among {self.texts('.notice p')}")
        self.run("document.querySelectorAll('.notice button').forEach((one) => one.click())")

    def yes(self) -> None:
        """Answers a question by yes."""
        self.click("dialog button[type=submit]")
        awaited(lambda: not self.all("dialog"), "the end of the question")

    def no(self) -> None:
        """Answers a question by no."""
        self.click("dialog button[type=button]")
        awaited(lambda: not self.all("dialog"), "the end of the question")

    def rows(self) -> list[str]:
        """The rows of the tree."""
        return self.texts("#tree .row")

    def row(self, text: str) -> Any:
        """The row of the tree that begins with a text."""
        found = "return [...document.querySelectorAll('#tree .row')].find((row) => row.textContent.startsWith(arguments[0])) ?? null"
        return awaited(lambda: self.run(found, text), f"the row {text} among {self.rows()}")

    def click_row(self, text: str) -> None:
        """Clicks on the row of the tree that begins with a text."""
        clicked(lambda: self.row(text))

    def picture(self, name: str) -> None:
        """Keeps a picture of the page."""
        PICTURES.mkdir(exist_ok=True)
        self.driver.save_screenshot(str(PICTURES / f"{name}.png"))

    def faults(self) -> list[str]:
        """What the browser complained of, but for answers of the service that say no."""
        return [entry["message"] for entry in self.driver.get_log("browser") if "Failed to load resource" not in entry["message"]]


Opened = Callable[..., Browser]


@pytest.fixture(scope="module")
def pool(page_front: Front) -> Iterator[list[Browser]]:
    """Browsers that no test has just now."""
    made: list[Browser] = []
    yield made
    for browser in made:
        browser.driver.quit()


@pytest.fixture
def browsers(page_front: Front, pool: list[Browser]) -> Iterator[Opened]:
    """Opens browsers at the front, at the door. None of them may have complained at the end."""
    taken: list[Browser] = []

    def opened(user: str = "", width: int = 1280, height: int = 800, scheme: str = "light") -> Browser:
        browser = pool.pop() if pool else Browser()
        taken.append(browser)
        browser.shaped(width, height, scheme)
        browser.driver.get(page_front.origin)
        if user:
            browser.sign_on(user)
        return browser

    yield opened
    complaints = [browser.faults() for browser in taken]
    for browser in taken:
        left(browser)
        pool.append(browser)
    assert complaints == [[] for _ in taken]


def left(browser: Browser) -> None:
    """Signs off, so that the terminal is free for the next test; what the page would ask before it is left is not asked."""
    browser.run("return fetch('signoff', { method: 'POST' }).then(() => true)")
    browser.driver.get("about:blank")
    browser.faults()
