"""demo/page/index.html in Debian's Chromium: each button, by the mouse's click and by the keyboard alone; what it says and counts; its tape,
which `remus sim` prints again; and its pictures."""
import re
import subprocess
import tempfile
from collections.abc import Callable
from pathlib import Path

from tests.chrome import Browser
from tests.tried import differs, program

ROOT = Path(__file__).resolve().parents[2]
PAGE = f"file://{ROOT}/demo/page/index.html"
SERVED = "+document.getElementById('count').textContent >= {}"
HAPPENED = "[...document.querySelectorAll('#happened a')].map(link => link.textContent)"
WRONG = "document.querySelectorAll('#last .wrong').length"
STATES = "[0, 1].map(place => document.getElementById(`host${place}`).dataset.state).join()"


def fast(browser: Browser, speed: int) -> None:
    browser.value(f"document.getElementById('speed').value = {speed}; document.getElementById('speed').oninput()")


def press(browser: Browser, button: str) -> None:
    """Presses a button, once it can be pressed."""
    browser.until(f"!document.getElementById('{button}').disabled")
    browser.value(f"document.getElementById('{button}').click()")


def served_more(browser: Browser) -> None:
    """Waits until the client was given three numbers more."""
    browser.until(SERVED.format(int(browser.value("document.getElementById('count').textContent")) + 3))


def failures(browser: Browser, act: Callable[[str], None]) -> str | None:
    """Every button but the last, one after the other, each pressed by `act`."""
    browser.until(SERVED.format(3))
    for button, state in (("primary", "none,alone"), ("protect", "backup,runs"), ("lose", "backup,runs"), ("backup", "none,alone"),
                          ("protect", "backup,runs"), ("primary", "alone,none"), ("protect", "runs,backup")):
        browser.until(f"!document.getElementById('{button}').disabled")
        act(button)
        browser.until(f"{STATES} === '{state}'")
        served_more(browser)
    told = browser.value(HAPPENED)
    seen = [any(words in line for line in told) for words in ("stops, in the middle", "goes on, from", "is a new backup", "can go on from here",
                                                               "is lost on the line", "the gate opens", "the backup, stops", "a second time")]
    return differs([seen, browser.value(WRONG), browser.said], [[True] * 7 + [False], 0, []])


def clicked(pictures: Path) -> str | None:
    """The buttons by clicks, and the tape."""
    with Browser(PAGE) as browser, tempfile.TemporaryDirectory() as room:
        fast(browser, 6)
        wrong = failures(browser, lambda button: press(browser, button))
        if wrong:
            return wrong
        tape = Path(room) / "tape.sim"
        tape.write_text(browser.value("page.tape.text()"))
        printed = subprocess.run([program(), "sim", tape], capture_output=True, text=True).stdout
        wrong = differs(printed == "".join(re.findall(r"(?m)^#> (.*\n)", tape.read_text())), True)
        others = [url[:80] for url in browser.requests if not url.startswith(("file:", "data:", "blob:"))]
        return wrong or differs(others, [])


def typed(pictures: Path) -> str | None:
    """The page by its keyboard alone: the keys of the buttons, and Tab, Enter and the arrows."""
    keys = {"primary": "p", "backup": "b", "protect": "n", "lose": "l"}
    with Browser(PAGE, 380, 800) as browser:
        for _ in range(3):
            browser.key("+")
        wrong = failures(browser, lambda button: browser.key(keys[button]))
        seen: list[str] = []
        while seen.count("speed") < 2 and len(seen) < 80:
            browser.key("Tab")
            seen.append(browser.value("document.activeElement.id || document.activeElement.name"))
            if seen[-1] == "primary" and "tape" in seen:
                browser.key("Enter")
        there = [name for name in ("primary", "lose", "early", "speed", "guest", "tape") if name not in seen]
        browser.until(f"{STATES} === 'none,alone'")
        wide = browser.value("document.documentElement.scrollWidth")
        return wrong or differs([there, wide], [[], 380])


def too_early(pictures: Path) -> str | None:
    """With a gate that goes too early the client is given a number twice, and then again with one that doesn't, never."""
    with Browser(PAGE) as browser:
        fast(browser, 6)
        for button, wanted in (("early", True), ("early", False)):
            press(browser, button)
            browser.until(f"page.isEarly === {str(wanted).lower()} && {SERVED.format(3)}")
            press(browser, "primary")
            browser.until(f"{STATES} === 'none,alone'")
            served_more(browser)
            came = [browser.value(WRONG) > 0, any("a second time" in line for line in browser.value(HAPPENED))]
            if came != [wanted] * 2:
                return f"with the gate pressed {wanted}: {came}"
        return differs(browser.said, [])


def database(pictures: Path) -> str | None:
    """The other guest answers what is typed, while its host stops."""
    with Browser(PAGE) as browser:
        fast(browser, 6)
        browser.value("document.querySelector('[value=sql]').click()")
        browser.until(f"page.guest === 'sql' && {SERVED.format(3)}")
        browser.value("document.querySelector('#sql button').click()")
        browser.until("document.getElementById('result').textContent.includes('70')")
        press(browser, "primary")
        browser.until(f"{STATES} === 'none,alone'")
        browser.value("document.getElementById('statement').value = 'SELECT balance FROM account WHERE id = 1'")
        browser.value("document.querySelector('#sql button').click()")
        browser.until("/^(balance\\s+)?70\\s*$/.test(document.getElementById('result').textContent)")
        served_more(browser)
        return differs([browser.value(WRONG), browser.said], [0, []])


def lacking(pictures: Path) -> str | None:
    """A browser that lacks what the program needs says so, and shows a recording."""
    with Browser(f"{PAGE}?lacks=memory64") as browser:
        browser.until(SERVED.format(2))
        said = browser.value("document.getElementById('lacks').textContent")
        return differs(["memory64" in said, "recording" in said, browser.said], [True, True, []])


def looks(pictures: Path) -> str | None:
    """Pictures of the page: for README, and wide, narrow and dark to be looked at."""
    for name, width, dark in (("wide", 1000, False), ("narrow", 380, False), ("dark", 1000, True)):
        with Browser(PAGE, width, 745, dark) as browser:
            fast(browser, 6)
            browser.until(SERVED.format(6))
            press(browser, "primary")
            browser.until(f"{STATES} === 'none,alone'")
            press(browser, "protect")
            browser.until(f"{STATES} === 'backup,runs'")
            served_more(browser)
            fast(browser, 0)
            # A whole epoch at this clock, so that its checkpoint is on the line.
            for moment in ("talk", "cut", "run"):
                browser.until(f"page.pair.moment === '{moment}'")
            if name == "wide":
                browser.picture(pictures / "page.png")
            browser.picture(pictures / f"page_{name}.png", whole=True)
    return None


TESTS = [clicked, typed, too_early, database, lacking, looks]
