# SPDX-License-Identifier: Apache-2.0
"""The page in headless Chromium: what users do, two at once, by keyboard alone, at 320 pixels, and with markup in every field."""
from __future__ import annotations

import re

import pytest
from front import PASSWORD, USERS, Front, write_users
from page_driver import PAGE, Browser, Opened, browsers, page_front, pool  # noqa: F401
from selenium.webdriver.common.keys import Keys
from selenium.webdriver.support.ui import Select

MARKUP = "<img src=x onerror=\"window.hit=1\"><b>x</b></textarea></script><script>window.hit=1</script>"
WHOLE = "Object.fromEntries([...document.querySelectorAll('textarea, input, select')].map((one) => [one.id, one.value]))"


def write_routine(browser: Browser, name: str, text: str) -> None:
    """Makes a routine in the editor, and saves it."""
    browser.part("routines")
    browser.click("#routine-new")
    browser.one("#new-routine").send_keys(name)
    browser.yes()
    browser.until(lambda: browser.one("#source").is_enabled(), "the editor")
    browser.one("#source").clear()
    browser.one("#source").send_keys(text)
    browser.click("#routine-save")


def choose_routine(browser: Browser, name: str) -> None:
    """Chooses a routine, once the list has come that is read when the part is opened."""
    browser.until(lambda: name in browser.one("#routine-choice").text, f"the routine {name} in the list")
    Select(browser.one("#routine-choice")).select_by_value(name)


@pytest.mark.long
def test_two_users_at_once(browsers: Opened) -> None:  # noqa: F811
    """One signs on, sets, walks the tree, edits and runs a routine, and signs off; one of another account sees nothing of it meanwhile."""
    ada, cleo = browsers("ada"), browsers("cleo", scheme="dark")
    assert ada.line('S ^VISIT("Lovelace, Ada",20261126)="check-up",^VISIT("Hopper, Grace")="new",^COUNT=2 W ^COUNT') == "2"
    assert "✓" in cleo.line("S ^OWN=1")
    ada.part("globals")
    ada.click("#globals-search")
    ada.click_row("^VISIT")
    ada.click_row('"Lovelace, Ada"')
    ada.click_row("20261126")
    assert ada.one("#node-name").text == '^VISIT("Lovelace, Ada",20261126)'
    assert ada.one("#node-text").get_attribute("value") == "check-up"
    ada.picture("two-users-tree")
    write_routine(ada, "SQUARE", 'SQUARE ; squares\n F N=1:1:3 W N*N," "\n')
    ada.notice("SQUARE: 2 lines saved.")
    ada.click("#routine-run")
    ada.until(lambda: ada.texts("#log .entry .reply")[-1] == "1 4 9 ", "the routine's output")
    ada.picture("two-users-routine")
    assert cleo.line('W $D(^VISIT),$D(^COUNT),$O(^ROUTINE(""))') == "00"
    assert "M13: line not found" in cleo.line("D ^SQUARE")
    cleo.part("globals")
    cleo.click("#globals-search")
    cleo.row("^OWN")
    assert cleo.rows() == ["^OWN"]
    cleo.one("#globals-name").send_keys("^VISIT\n")
    cleo.notice("^VISIT has no text, and there is none below it.")
    cleo.part("routines")
    cleo.until(lambda: cleo.one("#routine-choice").text.strip() == "No routines", "the list of routines")
    cleo.picture("two-users-other")
    for browser in (ada, cleo):
        browser.sign_off()
        assert browser.run("return document.querySelector('#log, #tree').children.length + document.querySelector('#source').value.length") == 0
        assert "CLINIC" not in browser.driver.page_source and "VISIT" not in browser.driver.page_source


def test_replies_stand_at_their_lines(browsers: Opened) -> None:  # noqa: F811
    ada = browsers("ada")
    assert ada.line('W 2/3,!,"abc"') == ".666666666666666667\nabc"
    assert ada.line("W 1 W B").startswith("1M6: undefined local variable")
    assert ada.line("W é").startswith("ZCHAR: character over 127")
    assert ada.line("W " + "1" * 254).startswith("ZLINE: line too long")
    assert ada.line('W "a"_$C(27,9,10)_"b"') == "a\\1B\t\\0Ab"
    assert "✓" in ada.line("S X=1")
    assert ada.texts("#log .sent")[:2] == ['W 2/3,!,"abc"', "W 1 W B"]
    field = ada.one("#line")
    field.send_keys("unfinished", Keys.ARROW_UP)
    assert field.get_attribute("value") == "S X=1"
    field.send_keys(Keys.ARROW_UP, Keys.ARROW_DOWN, Keys.ARROW_DOWN)
    assert field.get_attribute("value") == "unfinished"


PASTE = """const data = new DataTransfer(); data.setData("text", arguments[0]);
           document.querySelector("#line").dispatchEvent(new ClipboardEvent("paste", { clipboardData: data, bubbles: true, cancelable: true }));"""


def test_many_lines_are_pasted(browsers: Opened) -> None:  # noqa: F811
    """They are shown before they are run, and stop at the first code unless that is not wanted."""
    ada = browsers("ada")
    ada.run(PASTE, "S A=1\r\nW A\r\nW NONE\r\nS ^LATE=1\r\n")
    assert ada.one("dialog h2").text == "Run 4 lines?"
    ada.no()
    assert ada.texts("#log .entry") == []
    ada.run(PASTE, "S A=1\nW A\nW NONE\nS ^LATE=1\n")
    ada.yes()
    ada.until(lambda: "Stopped here: 1 line not run." in ada.texts("#log .note"), "the stop")
    assert ada.texts("#log .reply")[1] == "1" and ada.line("W $D(^LATE)") == "0"
    ada.run(PASTE, "W NONE\nS ^LATE=1 K ^LATE W 5")
    ada.click("#run-all")
    ada.yes()
    ada.until(lambda: ada.texts("#log .reply")[-1] == "5", "the last line")


def test_node_is_changed_and_killed_after_a_question(browsers: Opened) -> None:  # noqa: F811
    ada = browsers("ada")
    ada.line('S ^N(1)="old",^N(1,2)="below",^N(2)="two"')
    ada.part("globals")
    ada.one("#globals-name").send_keys("^N\n")
    ada.click_row("1")
    text = ada.one("#node-text")
    text.clear()
    text.send_keys('new "text"\nof two lines')
    ada.click("#node-set")
    ada.notice("^N(1) is set.")
    assert ada.line("W ^N(1),^N(1,2)") == 'new "text"\\0Aof two linesbelow'
    ada.line('S ^N(1)="changed by another"')
    ada.click("#node-set")
    assert "changed by another" in ada.one("dialog").text
    ada.no()
    ada.until(lambda: text.get_attribute("value") == "changed by another", "the text that is there")
    ada.click("#node-add")
    ada.one("#new-subscript").send_keys("Lovelace, Ada")
    ada.one("#new-text").send_keys("x" * 600)
    ada.yes()
    ada.notice('^N(1,"Lovelace, Ada") is set.')
    assert ada.line('W $L(^N(1,"Lovelace, Ada")),$D(%m)') == "6000"
    ada.row('"Lovelace, Ada"')
    ada.click_row("1")
    ada.click("#node-kill")
    assert "Kill ^N(1)?" in ada.one("dialog").text and "all nodes below" in ada.one("dialog").text
    ada.picture("question")
    ada.no()
    assert ada.line("W $D(^N(1))") == "11"
    ada.click("#node-kill")
    ada.yes()
    ada.notice("^N(1) is killed.")
    assert ada.line("W $D(^N(1)),$D(^N(2))") == "01"
    assert ada.rows()[ada.rows().index("^N"):][:2] == ["^N", '2="two"'] and '1="changed by another"' not in ada.rows()


def test_text_with_control_characters_keeps_them(browsers: Opened) -> None:  # noqa: F811
    ada = browsers("ada")
    ada.line('S ^C=$C(0,13,10)_"a"_$C(127)')
    ada.part("globals")
    ada.one("#globals-name").send_keys("^C\n")
    text = ada.one("#node-text")
    ada.until(lambda: text.get_attribute("value") == '$C(0,13,10)_"a"_$C(127)', "the text as an expression")
    text.send_keys('_"b"')
    ada.click("#node-set")
    ada.notice("^C is set.")
    assert ada.line('W ^C=($C(0,13,10)_"a"_$C(127)_"b")') == "1"


def test_tree_loads_as_it_is_opened(browsers: Opened) -> None:  # noqa: F811
    """120 children come in three parts, and those below a node only once that is opened."""
    ada = browsers("ada")
    ada.line("F I=1:1:120 S ^BIG(I)=I,^BIG(I,1)=I")
    ada.part("globals")
    ada.one("#globals-name").send_keys("^BIG\n")
    ada.until(lambda: "50=50" in ada.rows() and "more…" in ada.rows(), "a part of the tree")
    before = ada.rows().index("1=1")
    for count in (100, 120):
        ada.run("const all = document.querySelectorAll('#tree .rest'); all[all.length - 1].click()")
        ada.until(lambda count=count: f"{count}={count}" in ada.rows(), f"child {count}")
    assert ada.rows()[before:before + 120] == [f"{number}={number}" for number in range(1, 121)] and "more…" not in ada.rows()
    ada.click_row("7=")
    ada.until(lambda: ada.rows()[before + 6:before + 9] == ["7=7", "1=7", "8=8"], "the node below ^BIG(7)")


def test_routine_is_checked_and_saved_whole(browsers: Opened) -> None:  # noqa: F811
    ada = browsers("ada")
    write_routine(ada, "BAD", "BAD(A) ; sum\n\tS X=$$ADD(A)\n W 1\n".replace("\t", " "))
    ada.until(lambda: ada.all("dialog"), "the question")
    assert "2 lines not in the language" in ada.one("dialog").text
    ada.no()
    assert ada.texts("#findings .at") == ["1:4", "2:6"]
    assert "an extrinsic function" in ada.texts("#findings li")[1] and ada.line('W $D(^ROUTINE("BAD"))') == "0"
    ada.picture("findings")
    ada.click("#findings li:nth-child(2) button")
    assert ada.run("const s = document.querySelector('#source'); return [document.activeElement === s, s.value.slice(s.selectionStart, s.selectionEnd)]") \
        == [True, "$$ADD(A)"]
    assert ada.one("#source-state").text == "not saved"
    source = ada.one("#source")
    source.clear()
    source.send_keys("BAD ; sum é\n Q\n")
    ada.click("#routine-save")
    ada.notice("1:11: the character é is over 127")
    source.clear()
    source.send_keys("BAD ; sum\n Q\n")
    ada.click("#routine-save")
    ada.notice("BAD: 2 lines saved.")
    assert ada.one("#source-state").text == "saved"
    assert ada.line('W ^ROUTINE("BAD",1),"|",^ROUTINE("BAD",2),$O(^ROUTINE("BAD",2))') == "BAD ; sum| Q"
    ada.line('S ^ROUTINE("BAD",1)="BAD ; theirs"')
    source.send_keys(" ; more")
    ada.click("#routine-save")
    ada.until(lambda: ada.all("dialog"), "the question")
    assert "Somebody else has changed it" in ada.one("dialog").text
    ada.no()
    ada.click("#routine-delete")
    ada.yes()
    ada.notice("BAD is deleted.")
    assert ada.line('W $D(^ROUTINE("BAD"))') == "0"


def test_load_that_stops_puts_the_old_routine_back(browsers: Opened) -> None:  # noqa: F811
    """With 40 steps, a line that puts its text together out of many parts ends by ZSTEPS."""
    dora = browsers("dora")
    dora.line('S ^ROUTINE("R",1)="R",^ROUTINE("R",1.5)=" W 1",^ROUTINE("R","note")="x"')
    given = dora.module("""const [{ load, nodesOf }, { Terminal, session }] = [await import("/page/routines.js"), await import("/page/service.js")];
                          const own = new Terminal(await session(), () => {});
                          try {
                            const told = await own.alone((one) => load(one, "R", ["R", " Q", "\\n1".repeat(30), " W 1"])).catch((error) => error.message);
                            return [told, await own.alone((one) => nodesOf(one, "R"))];
                          } finally { own.close(); }""")
    assert given == ["R: its line 3 was answered ZSTEPS: steps used up; the old routine is back",
                     [[["R", "1"], "R"], [["R", "1.5"], " W 1"], [["R", "note"], "x"]]]


@pytest.mark.long
def test_markup_stays_text(browsers: Opened) -> None:  # noqa: F811
    """In values, subscripts, output, lines, routines, questions and messages, nothing of a text becomes an element."""
    ada = browsers("ada")
    quoted = MARKUP.replace('"', '""')
    assert ada.line(f'W "{quoted}"') == MARKUP
    ada.line(f'S M="{quoted}" S ^MARK(M)=M,^MARK(M,M)=M,^ROUTINE("MARK",1)="MARK ;"_M')
    ada.part("globals")
    ada.one("#globals-name").send_keys("^MARK\n")
    ada.click_row('"<img')
    ada.until(lambda: ada.one("#node-text").get_attribute("value") == MARKUP, "the text of the node")
    ada.picture("markup")
    ada.click("#node-kill")
    assert MARKUP.replace('"', '""') in ada.one("dialog").text
    ada.no()
    ada.click("#node-set")
    ada.notice("is set.")
    ada.one("#globals-name").send_keys(MARKUP + "\n")
    ada.notice("Type a global or a node of one")
    ada.part("routines")
    choose_routine(ada, "MARK")
    ada.until(lambda: ada.one("#source").get_attribute("value") == f"MARK ;{MARKUP}\n", "the routine")
    ada.click("#routine-check")
    ada.notice("1 line, all in the language.")
    ada.run(PASTE, f"; {MARKUP}\n{MARKUP}")
    ada.yes()
    ada.until(lambda: "ZSYNTAX" in ada.texts("#log .reply")[-1], "the refusal")
    assert ada.run("return [window.hit ?? null, document.querySelectorAll('b, script:not([src]), #app img:not([src^=\"page/\"])').length]") == [None, 0]
    assert "^ ZSYNTAX: " in ada.line(f"{MARKUP[:40]}")
    assert ada.line("W 1 2").splitlines()[:2] == ["W 1 2", "   ^ ZSYNTAX: two expressions need a comma, or two commands one space"]
    assert ada.line("W $RE(1) R X").splitlines()[1] == "  ^ ZSYNTAX: $REVERSE, which needs language 1 of the account's settings"


@pytest.mark.long
def test_keyboard_alone(browsers: Opened) -> None:  # noqa: F811
    """Signs on, runs a line, opens the tree, changes a node, kills one, and signs off, with keys alone and the focus in sight."""
    ada = browsers()
    ada.keys("ada", Keys.TAB, PASSWORD, Keys.ENTER)
    ada.one("#connection.open")
    ada.keys('S ^KEY(1)="one",^KEY(2)="two"', Keys.ENTER)
    ada.until(lambda: ada.texts("#log .reply .done"), "the reply")
    tabbed_to(ada, "globals-name")
    ada.keys("^KEY", Keys.ENTER)
    ada.until(lambda: focused(ada) == "^KEY", "the focus at the global")
    ada.until(lambda: '2="two"' in ada.rows(), "its children")
    ada.keys(Keys.ARROW_DOWN, Keys.ENTER)
    ada.until(lambda: ada.one("#node-text").get_attribute("value") == "one", "the node")
    ada.keys(Keys.F2)
    ada.keys(Keys.END, " more", Keys.TAB, Keys.ENTER)
    ada.notice("^KEY(1) is set.")
    tabbed_to(ada, "tree")
    ada.keys(Keys.ARROW_DOWN, Keys.DELETE)
    ada.until(lambda: ada.all("dialog"), "the question")
    assert ada.driver.switch_to.active_element.text == "Cancel"
    ada.keys(Keys.ESCAPE)
    ada.until(lambda: not ada.all("dialog"), "the end of the question")
    ada.keys(Keys.DELETE)
    ada.until(lambda: ada.all("dialog"), "the question")
    ada.keys(Keys.TAB, Keys.ENTER)
    ada.notice("^KEY(2) is killed.")
    tabbed_to(ada, "tab-globals")
    ada.keys(Keys.ARROW_RIGHT)
    assert ada.one("#routines") and focused(ada) == "Routines"
    ada.picture("keyboard")
    tabbed_to(ada, "line")
    ada.keys("W ^KEY(1),$D(^KEY(2))", Keys.ENTER)
    ada.until(lambda: ada.texts("#log .reply")[-1] == "one more0", "the reply")
    tabbed_to(ada, "sign-off")
    ada.keys(Keys.ENTER)
    ada.one("#user")


def focused(browser: Browser) -> str:
    """The text of what has the focus."""
    return browser.driver.switch_to.active_element.text.split("\n")[0]


def tabbed_to(browser: Browser, place: str) -> None:
    """Goes to an element, or into it, by Tab; whatever has the focus on the way is seen to have it."""
    for _ in range(40):
        browser.keys(Keys.TAB)
        is_there, is_seen = browser.run("""const at = document.activeElement, shown = at.matches("[role=treeitem]") ? at.querySelector(".row") : at;
            return [at.closest("#" + arguments[0]) !== null, at === document.body || getComputedStyle(shown).outlineStyle !== "none"];""", place)
        assert is_seen, f"the focus is not seen at {browser.driver.switch_to.active_element.get_attribute('outerHTML')[:80]}"
        if is_there:
            return
    raise AssertionError(f"Tab does not come to {place}")


SIDEWAYS = """const inside = (one) => { for (let at = one.parentElement; at; at = at.parentElement) {
                if (getComputedStyle(at).overflowX !== "visible" && at !== document.body && at !== document.documentElement) { return true; } } return false; };
              return [document.scrollingElement.scrollWidth, [...document.body.querySelectorAll("*")].filter((one) => one.checkVisibility() && !inside(one)
                && one.getBoundingClientRect().right > innerWidth + 0.5).map((one) => one.outerHTML.slice(0, 80))];"""
CUT = """return [...document.querySelectorAll("button, input, select, #source, [role=tab]")].filter((one) => one.checkVisibility())
         .filter((one) => { const box = one.getBoundingClientRect(); return box.left < -0.5 || box.right > innerWidth + 0.5; })
         .filter((one) => !one.matches(".skip")).map((one) => one.id || one.textContent);"""


@pytest.mark.parametrize("scheme", ["light", "dark"])
def test_320_pixels(browsers: Opened, scheme: str) -> None:  # noqa: F811
    """No part scrolls sideways, and each field and button is whole in sight."""
    ada = browsers(width=320, height=640, scheme=scheme)
    seen(ada, f"320-{scheme}-door")
    ada.sign_on("ada")
    ada.line('S ^NARROW("a long subscript, longer than the screen is wide",1)="' + "wide " * 30 + '"')
    ada.line("W NONE")
    seen(ada, f"320-{scheme}-terminal")
    ada.part("globals")
    ada.one("#globals-name").send_keys("^NARROW\n")
    ada.click_row('"a long')
    ada.click_row("1=")
    seen(ada, f"320-{scheme}-globals")
    ada.click("#node-kill")
    seen(ada, f"320-{scheme}-question")
    ada.no()
    write_routine(ada, "NARROW", "NARROW ; " + "x" * 100 + "\n S X=$$ADD(1)\n")
    ada.until(lambda: ada.all("dialog"), "the question")
    seen(ada, f"320-{scheme}-save")
    ada.no()
    seen(ada, f"320-{scheme}-routines")
    ada.run("document.querySelector('#routine-choice').value = ''")
    ada.click("#sign-off")
    ada.yes()
    ada.one("#user")


def seen(browser: Browser, name: str) -> None:
    """Looks at the page, and keeps a picture."""
    browser.picture(name)
    assert browser.run(SIDEWAYS) == [320, []]
    assert browser.run(CUT) == []


# What is too small for a finger, or makes a phone zoom in: fields with letters below 16 pixels, and what is touched below 44.
SMALL = """const told = (one) => one.id || one.className || one.textContent.slice(0, 20), seen = [...document.querySelectorAll(
             "button, input, select, textarea, .check, [role=tab], [role=treeitem] .row")].filter((one) => one.checkVisibility() && !one.matches(".skip"));
           return [seen.filter((one) => one.matches("input, select, textarea") && parseFloat(getComputedStyle(one).fontSize) < 16).map(told),
                   seen.filter((one) => !one.matches("[type=checkbox], textarea") && one.getBoundingClientRect().height < 44).map(told), seen.length];"""


def fits_fingers(browser: Browser, least: int) -> None:
    """Looks at all fields and targets that are there, at least this many."""
    letters, targets, count = browser.run(SMALL)
    assert (letters, targets) == ([], []) and count >= least


def test_fields_and_targets_of_a_phone(browsers: Opened) -> None:  # noqa: F811
    ben = browsers(width=390, height=844)
    fits_fingers(ben, 4)
    ben.sign_on("ben")
    ben.line('S ^PHONE(1)="one",^PHONE(2)="two" W NONE')
    fits_fingers(ben, 5)
    # That there is no connection is said in words, and not by a colour alone.
    width = "return document.querySelector('#connection-text').getBoundingClientRect().width"
    assert ben.run(width) <= 1 < 40 < ben.run(f"const all = document.querySelector('#connection'); all.className = 'waiting'; {width}")
    assert ben.run(SIDEWAYS) == [390, []]
    ben.run("document.querySelector('#connection').className = 'open'")
    ben.part("globals")
    ben.one("#globals-name").send_keys("^PHONE\n")
    ben.click_row("1=")
    ben.one("#node-text")
    fits_fingers(ben, 10)
    ben.click("#node-kill")
    fits_fingers(ben, 12)
    ben.picture("phone-question")
    ben.no()
    write_routine(ben, "PHONE", "PHONE ; x\n S X=$$ADD(1)\n")
    ben.until(lambda: ben.all("dialog"), "the question")
    ben.no()
    fits_fingers(ben, 8)
    ben.click("#change-password")
    ben.one("#old-password")
    fits_fingers(ben, 12)
    ben.picture("phone-password")
    ben.no()


def test_help_leads_to_the_page_of_the_language(browsers: Opened) -> None:  # noqa: F811
    """It opens beside the terminal, which goes on; each of its links leads somewhere in it, and it fits a phone."""
    ada = browsers("ada", width=320, height=640)
    ada.click("#help")
    ada.click("#language")
    own, other = ada.until(lambda: len(ada.driver.window_handles) == 2 and ada.driver.window_handles, "the page of the language")
    ada.driver.switch_to.window(other)
    ada.shaped(320, 640, "light")
    ada.one("h1")
    assert ada.texts("h1") == ["The profile of M"] and ada.all("table")
    assert ada.run("return [...document.querySelectorAll('a')].filter((one) => !document.getElementById(one.hash.slice(1))).length") == 0
    assert ada.run("return getComputedStyle(document.querySelector('td')).borderTopStyle") == "solid"
    ada.picture("320-language")
    width, wider = ada.run(SIDEWAYS)
    assert width <= 320 and wider == [] and ada.faults() == []
    ada.driver.close()
    ada.driver.switch_to.window(own)
    ada.yes()
    assert ada.line("W 7").startswith("7")


def fill_passwords(browser: Browser, *texts: str) -> None:
    """Fills in the dialog by which one's own password is changed, and sends it."""
    for name, text in zip(("old", "new", "again"), texts, strict=True):
        field = browser.one(f"#{name}-password")
        field.clear()
        field.send_keys(text)
    browser.click("dialog button[type=submit]")


def test_ones_own_password_is_changed(browsers: Opened) -> None:  # noqa: F811
    """It says why one is not taken, and asks again. Then the user's other session has ended, and the new one counts."""
    chosen = "another of mine 7"
    here, there = browsers("ben"), browsers("ben")
    here.line("S A=5")
    here.click("#change-password")
    for texts, why in (((PASSWORD, chosen, "another of mine 8"), "The two new passwords differ."), (("not this one", chosen, chosen), "not right"),
                       ((PASSWORD, "ben ben ben ben", "ben ben ben ben"), "password")):
        before = here.texts("dialog #about")
        fill_passwords(here, *texts)
        here.until(lambda why=why, before=before: (told := here.texts("dialog #about")) != before and any(why in text for text in told), f"why not: {why}")
    here.click("#show-passwords")
    assert {here.one(f"#{name}-password").get_attribute("type") for name in ("old", "new", "again")} == {"text"}
    fill_passwords(here, PASSWORD, chosen, chosen)
    here.notice("Your password is changed.")
    there.until(lambda: there.all("#user"), "the door")
    assert here.line("W A") == "5"
    there.one("#user").send_keys("ben")
    there.one("#password").send_keys(PASSWORD + Keys.ENTER)
    there.until(lambda: there.one("#sign-on-fault").text.startswith("Wrong name or password."), "the refusal")
    there.until(lambda: there.one("#sign-on button").is_enabled(), "another try")
    there.sign_on("ben", chosen)
    there.click("#change-password")
    fill_passwords(there, chosen, PASSWORD, PASSWORD)
    there.notice("Your password is changed.")


# The roles of elements that have to have a name.
NAMED = ("button", "textbox", "combobox", "tab", "treeitem", "tree", "tabpanel", "log")


@pytest.mark.parametrize("scheme", ["light", "dark"])
def test_pictures_of_a_wide_page(browsers: Opened, scheme: str) -> None:  # noqa: F811
    """The page beside the terminal, in both colours: each button and field has a name, as screen readers ask for it."""
    ada = browsers("ada", scheme=scheme)
    ada.line('S ^WIDE(1)="one",^WIDE("two",3)=3 W NONE')
    ada.part("globals")
    ada.one("#globals-name").send_keys("^WIDE\n")
    ada.click_row("1=")
    ada.picture(f"wide-{scheme}")
    for part in ("globals", "routines"):
        ada.part(part)
        tree = ada.driver.execute_cdp_cmd("Accessibility.getFullAXTree", {})["nodes"]
        parts = [node for node in tree if not node.get("ignored") and node["role"]["value"] in NAMED]
        assert len(parts) > 12 and [node for node in parts if not node.get("name", {}).get("value")] == []


def luminance(colour: str) -> float:
    """The relative luminance of a colour, as WCAG defines it."""
    parts = [int(colour[at:at + 2], 16) / 255 for at in (1, 3, 5)]
    red, green, blue = (part / 12.92 if part <= 0.04045 else ((part + 0.055) / 1.055) ** 2.4 for part in parts)
    return 0.2126 * red + 0.7152 * green + 0.0722 * blue


@pytest.mark.parametrize("scheme", [0, 1])
def test_contrast_of_texts(scheme: int) -> None:
    """Each pair of a text and its ground has a contrast of at least 4.5, and borders of fields 3, in light and in dark."""
    blocks = re.findall(r":root \{(.*?)\}", (PAGE / "style.css").read_text(encoding="utf-8"), re.DOTALL)
    colours = dict(re.findall(r"--([a-z-]+): (#[0-9a-f]{6});", blocks[scheme]))
    pairs = [(text, ground, 4.5) for text in ("text", "muted", "accent", "fault", "good") for ground in ("surface", "sunken")]
    pairs += [("on-accent", "accent", 4.5), ("warn", "warn-soft", 4.5), ("text", "accent-soft", 4.5), ("muted", "accent-soft", 4.5),
              ("fault", "fault-soft", 4.5), ("strong-line", "surface", 3)]
    for text, ground, least in pairs:
        lighter, darker = sorted((luminance(colours[text]), luminance(colours[ground])), reverse=True)
        assert (lighter + 0.05) / (darker + 0.05) >= least, (text, ground)


def test_nothing_comes_from_other_hosts(browsers: Opened, page_front: Front) -> None:  # noqa: F811
    ada = browsers("ada")
    ada.part("routines")
    loaded = ada.run("return performance.getEntriesByType('resource').map((one) => one.name)")
    assert len(loaded) > 10 and all(name.startswith(page_front.origin) for name in loaded)


def test_wrong_password_says_so(browsers: Opened) -> None:  # noqa: F811
    ben = browsers()
    ben.one("#user").send_keys("ben")
    ben.one("#password").send_keys("not this one" + Keys.ENTER)
    ben.until(lambda: ben.one("#sign-on-fault").text.startswith("Wrong name or password."), "the refusal")
    assert ben.one("#password").get_attribute("value") == "" and not ben.all("#app")
    ben.until(lambda: ben.one("#sign-on button").is_enabled(), "another try")


def test_server_that_ends_is_told(browsers: Opened, page_front: Front) -> None:  # noqa: F811
    """The server is killed: the page says that variables are gone, and goes on."""
    ben = browsers("ben")
    ben.line('S A=1,^STAYS="there"')
    page_front.kill_child()
    ben.until(lambda: any("The server was started again" in text for text in ben.texts("#log .note")), "the note of the restart")
    assert ben.line("W ^STAYS").startswith("there") and ben.line("W A").startswith("M6")


@pytest.mark.long
def test_what_was_not_saved_is_kept_for_its_user_alone(browsers: Opened, page_front: Front) -> None:  # noqa: F811
    """A session that the service ends leaves nothing on the screen; the same user finds the routine again, and nobody else does."""
    ben = browsers("ben")
    write_routine(ben, "DRAFT", "DRAFT ; first\n")
    ben.notice("saved.")
    signed_off_with_draft(ben, page_front, "another password 1")
    ben.sign_on("ben", "another password 1")
    ben.part("routines")
    ben.until(lambda: ben.one("#source").get_attribute("value") == "DRAFT ; first\n ; not saved", "what was not saved")
    ben.until(lambda: ben.one("#source-state").text == "not saved", "the word for it")
    signed_off_with_draft(ben, page_front, PASSWORD)
    ben.sign_on("cleo")
    ben.part("routines")
    assert not ben.one("#source").is_enabled() and ben.one("#source").get_attribute("value") == ""
    ben.sign_off()
    ben.sign_on("ben")
    ben.part("routines")
    choose_routine(ben, "DRAFT")
    ben.until(lambda: ben.one("#source").is_enabled(), "the routine")
    ben.one("#source").send_keys(" ; not wanted")
    ben.click("#sign-off")
    assert "The routine DRAFT is not saved." in ben.one("dialog").text
    ben.yes()
    ben.sign_on("ben")
    ben.part("routines")
    assert ben.one("#source").get_attribute("value") == ""


def signed_off_with_draft(browser: Browser, front: Front, password: str) -> None:
    """Changes a routine, and has all users signed off by a new password."""
    source = browser.one("#source")
    if "not saved" not in source.get_attribute("value"):
        source.send_keys(" ; not saved")
    write_users(front.folder / "users.json", USERS, password)
    browser.until(lambda: browser.all("#user"), "the door")
    assert "your user or password was changed" in browser.one("#sign-on-fault").text
    assert "not saved" not in browser.run(f"return JSON.stringify({WHOLE}) + document.body.textContent")
