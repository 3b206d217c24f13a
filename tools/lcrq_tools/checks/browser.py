"""Opens the pages of runs in a browser, goes along them, and compares them with the program's replies.

    /usr/bin/python3 tools/check.py browser [NAME..] [--program P]

The gate can't run it: it needs Debian's chromium, chromium-driver and python3-selenium, whose Python is
/usr/bin/python3. It makes the page of each lesson, of the README's session, of the guide's first run and of
a history, which has the name `viewers`, or of those that are named. It goes along all lines by the arrows,
and by End, Home, the slider, a click and the address. After each key it compares what is drawn with
the program's replies at that line, which are asked of a new run; with the accessibility tree; and who asked
the line and each step with the history. At widths of 400, 1,000 and 1,900 pixels no text may be cut off or
overlap another one, and no part may change its size along the run; the browser may log no error. A handout has
the queue at each bookmark, or at the end. A page whose moments come one after another has to become what it is
with all of them, a page of a part of the lines shows what the program replies, and a policy that allows no inline
style and no handler finds nothing to forbid. On a run of 400 lines, which has the name `long`, a key has to be
answered within 50 ms, and its page stays below 1 MB. Each check prints a line; the status is 1 if one fails, or
if the browser is missing, where each line says `skipped`.
"""

import argparse
import functools
import itertools
import random
import re
import shutil
import tempfile
import time
from collections.abc import Iterator
from pathlib import Path
from typing import Any

from lcrq_tools import dependence, model, program
from lcrq_tools.checks import browser_live, histories, run_pages, shown
from lcrq_tools.faults import Parser
from lcrq_tools.options import add_program
from lcrq_tools.page import page

try:
    from selenium import webdriver
    from selenium.webdriver.common.action_chains import ActionChains
    from selenium.webdriver.common.by import By
    from selenium.webdriver.common.keys import Keys

    HAS_SELENIUM = True
except ImportError:
    HAS_SELENIUM = False

LONG, VIEWERS, LIVE = "long", "viewers", "live"
LINES = 40  # of the history of viewers
WIDTHS = (400, 1000, 1900)  # pixels: a phone, a window, a beamer
HEIGHT = 1000
MOST_MS = 50.0  # that a key may take
WALKS = 3  # how often each key is pressed: the quickest counts, since others may use the machine
LEAST_SIZE = {400: 9.5, 1000: 11.0, 1900: 13.0}  # pixels of the smallest letters, by the width
# What a live page allows: nothing that has no nonce, as attributes of style and handlers have none.
ALLOWED = "default-src 'none'; script-src 'nonce-n'; style-src 'nonce-n'; img-src data:"
POLICY = f'<meta http-equiv="Content-Security-Policy" content="{ALLOWED}">'
READS = Path(__file__).with_name("browser.js").read_text(encoding="utf-8")
Json = Any  # what a function of browser.js returns
Selenium = Any  # an object of selenium, most of whose functions have no types
OPTIONS = ("--headless=new", "--no-sandbox", "--disable-gpu", "--force-prefers-reduced-motion")


# ---- The browser ----------------------------------------------------------------------------------


class Browser:
    """A page in a browser."""

    def __init__(self) -> None:
        options: Selenium = webdriver.ChromeOptions()
        options.binary_location = shutil.which("chromium") or "chromium"
        for word in OPTIONS:
            options.add_argument(word)
        options.set_capability("goog:loggingPrefs", {"browser": "ALL"})
        service = webdriver.chrome.service.Service(shutil.which("chromedriver") or "chromedriver")
        self.driver: Selenium = webdriver.Chrome(options=options, service=service)

    def open(self, path: Path, fragment: str = "") -> None:
        """Opens a page."""
        self.driver.get("about:blank")
        self.driver.get(f"{path.as_uri()}{fragment}")
        self.read()

    def read(self) -> None:
        """Gives the page what reads it."""
        self.driver.execute_cdp_cmd("Runtime.evaluate", {"expression": READS})

    def ask(self, call: str) -> Json:
        """What a function of browser.js returns."""
        return self.driver.execute_script(f"return {call}")

    def actions(self) -> Selenium:
        """Actions of the keys and the mouse, none so far."""
        chains: Selenium = ActionChains  # selenium may have no types
        return chains(self.driver)

    def press(self, key: str) -> None:
        """Presses a key."""
        self.actions().send_keys(key).perform()

    def address(self, wanted: str) -> str:
        """The end of the address; it may take a moment until that is as wanted."""
        ends = time.monotonic() + 2.0
        while self.ask("location.hash") != wanted and time.monotonic() < ends:
            time.sleep(0.05)
        return str(self.ask("location.hash"))

    def resize(self, width: int) -> None:
        """Gives the page this width."""
        size = {"width": width, "height": HEIGHT, "deviceScaleFactor": 1, "mobile": False}
        self.driver.execute_cdp_cmd("Emulation.setDeviceMetricsOverride", size)

    def errors(self) -> str:
        """What the browser has logged, if anything."""
        return "; ".join(entry["message"] for entry in self.driver.get_log("browser"))

    def tree(self) -> list[shown.Node]:
        """The nodes of the accessibility tree that aren't left out, each its role, its name and more."""
        nodes = self.driver.execute_cdp_cmd("Accessibility.getFullAXTree", {})["nodes"]
        return [
            {
                "role": node["role"]["value"],
                "name": node.get("name", {}).get("value", ""),
                **{prop["name"]: prop["value"].get("value") for prop in node.get("properties", [])},
            }
            for node in nodes
            if not node.get("ignored") and "role" in node
        ]


# ---- A walk ---------------------------------------------------------------------------------------


class Walk:
    """A page, which is written into a file, and the replies at each of its lines."""

    def __init__(self, browser: Browser, path: Path, arguments: argparse.Namespace) -> None:
        self.browser, self.path, self.arguments = browser, path, arguments
        path.write_text(page.page_of(arguments)[0], encoding="utf-8")
        self.run = page.session_of(arguments)
        self.count = len(self.run.lines)
        columns = model.lines_of(model.PAGE.read_text(encoding="utf-8")).values()
        self.code = {point: "\n".join(lines).strip() for column in columns for point, lines in column.items()}

    @functools.cache
    def moment(self, line: int) -> shown.Moment:
        """The program's replies at a line."""
        return shown.Moment(self.run, line)

    def fault_at(self, line: int) -> str:
        """What is wrong with what is shown, if that is to be this line, or nothing."""
        asked, drawn = self.moment(line), self.browser.ask("shown()")
        fault = (
            shown.words_fault(drawn, asked, self.browser.tree(), self.count)
            or shown.places_fault(drawn, asked)
            or shown.order_fault(drawn, asked)
            or shown.actors_fault(drawn, asked, self.code)
            or shown.rows_fault(drawn, asked)
        )
        return f"line {line}: {fault}" if fault else ""

    def keys_fault(self) -> str:
        """What is wrong with what the keys show, or nothing."""
        browser = self.browser
        browser.resize(WIDTHS[1])
        browser.open(self.path)
        moves = [(Keys.ARROW_RIGHT, line) for line in range(1, self.count + 1)]
        moves += [(Keys.ARROW_LEFT, line) for line in range(self.count - 1, -1, -1)]
        moves += [(Keys.ARROW_LEFT, 0), (Keys.PAGE_DOWN, 1), (Keys.PAGE_DOWN, 2), (Keys.PAGE_UP, 1)]
        moves += [(Keys.END, self.count), (Keys.ARROW_RIGHT, self.count), (Keys.HOME, 0)]
        fault = self.fault_at(0)
        for key, line in moves:
            if fault:
                return fault
            browser.press(key)
            fault = self.fault_at(line)
            if browser.address(f"#line={line}") != f"#line={line}":
                return f"line {line}: the address has {browser.ask('location.hash')}"
        return fault or self.others_fault() or browser.errors()

    def others_fault(self) -> str:
        """What is wrong with what the slider, a click and the address show, or nothing."""
        browser, middle = self.browser, max(1, self.count // 2)
        slider = browser.driver.find_element(By.ID, "slider")
        browser.actions().move_to_element(slider).click().perform()
        fault = self.fault_at(int(slider.get_attribute("value")))
        if slider.get_attribute("value") == "0":
            return "a click on the slider leads nowhere"
        slider.send_keys(Keys.ARROW_LEFT)
        fault = fault or self.fault_at(int(slider.get_attribute("value")))
        browser.address(f"#line={slider.get_attribute('value')}")  # the page writes it late, over the next one
        browser.driver.execute_script(f"location.hash = '#line={middle}'")
        fault = fault or self.fault_at(middle)
        browser.driver.find_elements(By.CSS_SELECTOR, "#lines button")[self.count].click()
        fault = fault or self.fault_at(self.count)
        browser.open(self.path, f"#line={middle}")
        fault = fault or self.fault_at(middle)
        browser.press(Keys.END)
        return fault or self.dependants_fault() or self.picked_fault() or self.handout_fault()

    def handout_fault(self) -> str:
        """What is wrong with the handout, or nothing: the queue at each bookmark, and at the line that is shown,
        which is the last one."""
        moments = [self.moment(line) for line in range(self.count + 1)]
        wanted = []
        for moment in [*(moment for moment in moments[:-1] if moment.reply.startswith("marked ")), moments[-1]]:
            values = {place: content for place, content in moment.contents.items() if place.startswith("value ")}
            texts = {place: "" if content == "none" else content for place, content in values.items()}
            wanted.append([f"Line {moment.line}, {moment.begin}: {moment.reply}. {moment.told}", texts])
        figures = self.browser.ask("handout()")
        if figures != wanted:
            return f"the handout has {figures}, wanted {wanted}"
        return self.fault_at(self.count)

    def dependants_fault(self) -> str:
        """Which row of the last line marks others than those that depend on it, or nothing."""
        browser, asked = self.browser, self.moment(self.count)
        steps = [dependence.step_of(record, asked.ring) for record in asked.records]
        numbers = [row["id"] for row in browser.ask("rowsShown()")]
        for row, (number, step) in enumerate(zip(numbers, steps), 1):
            later = zip(numbers[row:], steps[row:])
            wanted = [other for other, after in later if dependence.depend(step, after)]
            marked = browser.ask(f"dependants({number})")
            if marked != wanted:
                return f"row {row} marks the rows {marked}, wanted {wanted}"
        return ""

    def picked_fault(self) -> str:
        """Which row of the last line doesn't tell its step when it is clicked, or doesn't lead to the line that made
        it, or nothing."""
        rows = self.browser.ask("rowsShown()")
        for row, step in zip(rows, itertools.chain(range(1, self.moment(self.count).live + 1), itertools.repeat(0))):
            told = self.browser.ask(f"picked({row['id']})")
            if told != {"row": row["id"], "step": step}:
                return f"row {row['id']} tells {told}, wanted step {step}"
            led = [other["id"] for other in self.browser.ask("rowsShown()") if other["last"]]
            if row["id"] > 0 and led != [row["id"]]:  # a line made it
                return f"row {row['id']} leads to {self.browser.ask('location.hash')}"
            self.browser.press(Keys.END)
        return ""

    def grown_fault(self) -> str:
        """What a page shows in another way when its moments come one after another, or nothing."""
        self.browser.resize(WIDTHS[1])
        self.browser.open(self.path)
        return self.browser.ask("grown()") or self.browser.errors()

    def policy_fault(self) -> str:
        """What a policy that allows nothing but scripts and styles with a nonce finds to forbid, or nothing."""
        text, path = self.path.read_text(encoding="utf-8"), self.path.with_suffix(".policy.html")
        allowed = re.sub(r"<(style|script)\b", r'<\1 nonce="n"', text)
        path.write_text(allowed.replace("<head>", f"<head>\n{POLICY}", 1), encoding="utf-8")
        self.browser.open(path)
        self.browser.ask("handout()")
        self.browser.press(Keys.END)
        return self.fault_at(self.count) or self.browser.errors()

    def part_fault(self) -> str:
        """What is wrong with what the page of a later part of the run shows, or nothing."""
        first, browser = self.count // 2 + 1, self.browser
        path = self.path.with_suffix(".part.html")
        arguments = argparse.Namespace(**vars(self.arguments) | {"part": (first, self.count)})
        path.write_text(page.page_of(arguments)[0], encoding="utf-8")
        browser.open(path)
        for line in range(first - 1, self.count + 1):
            asked, drawn = self.moment(line), browser.ask("shown()")
            fault = (
                ("" if drawn["where"] == f"line {line} of {self.count}" else f"it is {drawn['where']}")
                or shown.places_fault(drawn, asked)
                or shown.order_fault(drawn, asked)
                or shown.actors_fault(drawn, asked, self.code)
            )
            if fault:
                return f"line {line}: {fault}"
            browser.press(Keys.ARROW_RIGHT)
        return browser.errors()

    def layout_fault(self) -> str:
        """Which text is cut off or overlaps another one, and which part changes its size, or nothing."""
        for width in WIDTHS:
            self.browser.resize(width)
            self.browser.open(self.path)
            size = self.browser.ask("frames()")
            for line in range(self.count + 1):
                faults, frames = self.browser.ask("layoutFaults()"), self.browser.ask("frames()")
                faults += [] if frames == size else [f"the parts were {size}, and are {frames}"]
                if faults:
                    return f"line {line} at {width} pixels: {faults[0]} ({len(faults)} in all)"
                self.browser.press(Keys.ARROW_RIGHT)
            if self.browser.ask("smallest()") < LEAST_SIZE[width]:
                return f"letters of {self.browser.ask('smallest()'):.1f} pixels at {width} pixels"
        return self.browser.errors()


# ---- The checks -----------------------------------------------------------------------------------


def long_fault(browser: Browser, folder: Path, given: argparse.Namespace) -> str:
    """What is wrong with the page of a run of 400 lines, or nothing."""
    path = folder / "long.html"
    arguments = page.parser().parse_args(run_pages.long_words(400, folder, given))
    path.write_text(page.page_of(arguments)[0], encoding="utf-8")
    if path.stat().st_size >= run_pages.MOST_BYTES:
        return f"it has {path.stat().st_size} bytes"
    browser.resize(WIDTHS[-1])
    browser.open(path)
    keys = ["ArrowRight"] * 400 + ["ArrowLeft"] * 400
    walks: list[list[float]] = [[browser.ask(f"pressed('{key}')") for key in keys] for _ in range(WALKS)]
    times = sorted(min(tries) for tries in zip(*walks))
    print(f"      {path.stat().st_size} bytes, a key takes {times[400]:.1f} ms, the slowest {times[-1]:.1f} ms")
    late = [took for took in times if took > MOST_MS]
    return f"{len(late)} of 800 keys take more than {MOST_MS} ms" if late else browser.errors()


def walk_of(browser: Browser, name: str, options: str, folder: Path, given: argparse.Namespace) -> Walk:
    """The page of an example, or of a history at random."""
    if name == VIEWERS:
        words = histories.viewed_run(random.Random(1), folder, given.program, LINES).words
        return Walk(browser, folder / f"{name}.html", page.parser().parse_args(words))
    return Walk(browser, folder / f"{name}.html", run_pages.arguments_of(name, options, given.program))


def checks(browser: Browser | None, folder: Path, given: argparse.Namespace) -> Iterator[tuple[str, str]]:
    """The checks, each a name and what is wrong, or nothing; without a browser, all are skipped."""
    skipped = program.Skipped(missing())
    for name, options in [*run_pages.pages().items(), (VIEWERS, "")]:
        if not given.names or name in given.names:
            walk = walk_of(browser, name, options, folder, given) if browser else None
            yield f"{name}, by all keys", walk.keys_fault() if walk else skipped
            yield f"{name}, at {len(WIDTHS)} widths", walk.layout_fault() if walk else skipped
            yield f"{name}, moment by moment", walk.grown_fault() if walk else skipped
            yield f"{name}, a part of its lines", walk.part_fault() if walk else skipped
            yield f"{name}, under a policy", walk.policy_fault() if walk else skipped
    if not given.names or LONG in given.names:
        yield "a run of 400 lines", long_fault(browser, folder, given) if browser else skipped
    if not given.names or LIVE in given.names:
        yield from browser_live.live_checks(browser, folder, given) if browser else [("the live page", skipped)]


def missing() -> str:
    """The names of what isn't here, or nothing."""
    names = [program.missing_of(("chromium", "chromedriver")), "" if HAS_SELENIUM else "selenium"]
    return ", ".join(filter(None, names))


def main() -> int:
    """Prints each check; returns the exit status."""
    parser = Parser(__doc__, "session")
    about = f"examples whose pages are opened, {VIEWERS}: a history, {LONG}: a run of 400 lines, {LIVE}: the live page (all)"
    parser.add_argument("names", nargs="*", metavar="NAME", help=about)
    add_program(parser)
    given = parser.parse_args()
    browser = None if missing() else Browser()
    try:
        with tempfile.TemporaryDirectory() as folder:
            return program.print_checks(checks(browser, Path(folder), given))
    finally:
        if browser:
            browser.driver.quit()
