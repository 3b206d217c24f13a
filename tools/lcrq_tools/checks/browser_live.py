"""Acts in a live page as people do, for `tools/check.py browser`: by each of its buttons, keys and clicks.

Each act has to ask the line that it stands for, and then the page has to show what the program replies when it is asked
anew. Two tabs are two viewers. At three widths, in the dark and at twice the size nothing may be cut off or overlap.
"""

import argparse
import functools
import time
from collections.abc import Callable, Iterator, Sequence
from pathlib import Path
from typing import Any

from lcrq_tools import model
from lcrq_tools.bench.random_runs import random_run
from lcrq_tools.checks import shown
from lcrq_tools.checks.live_clients import Served, Tab
from lcrq_tools.page import page
from lcrq_tools.program import EXAMPLES

SECONDS = 20.0  # that a page may take to show a line, on a busy machine
WORLD = ["--actors", "3", "--ring", "2"]
# Three actors, one of which has made a segment and another is about to: steps of all kinds.
FIVE = ["enq 1 7", *["go 1"] * 6, "enq 2 8", *["go 2"] * 6, "enq 3 9", *["go 3"] * 4, "deq 1", *["go 1"] * 2]
LONG = 900  # steps of a run of which only the last ones are listed
CHOICE_WORLD = ["--actors", "2", "--ring", "2"]
CHOICE = EXAMPLES / "06-starvation-closes-ring.script"
WIDTHS = ((400, 900), (1280, 720), (1920, 1080))
READY = "typeof page !== 'undefined' && page.states.length > 0 && page.now === page.states.length - 1"
ROLES = ("button", "textbox", "checkbox", "link", "combobox", "spinbutton")  # of what has to have a name
NAMES = ("undo", "redo", "ask", "bookmark", "at random", "share", "show")  # of what a screen reader finds

Json = Any  # what the page returns


class Acting:
    """A live page in a browser, and its server."""

    def __init__(self, browser: Any, served: Served, folder: Path, program: str) -> None:
        self.browser, self.served, self.folder, self.program = browser, served, folder, program
        self.tab: Tab = served.tab()
        columns = model.lines_of(model.PAGE.read_text(encoding="utf-8")).values()
        self.code = {point: "\n".join(lines).strip() for column in columns for point, lines in column.items()}
        self.size(*WIDTHS[-1])
        self.open(served.addresses[0])

    # ---- The browser

    def size(self, width: int, height: int) -> None:
        """Gives the page this size."""
        size = {"width": width, "height": height, "deviceScaleFactor": 1, "mobile": False}
        self.browser.driver.execute_cdp_cmd("Emulation.setDeviceMetricsOverride", size)

    def open(self, address: str) -> None:
        """Opens an address in this tab."""
        self.browser.driver.get(address)
        self.browser.read()
        self.until(READY)

    def ask(self, script: str) -> Json:
        """What an expression of the page is."""
        return self.browser.ask(script)

    def until(self, wanted: str) -> None:
        """Waits until an expression of the page holds."""
        ends = time.monotonic() + SECONDS
        while not self.ask(wanted):
            if time.monotonic() > ends:
                raise TimeoutError(f"{wanted} doesn't come to hold at {self.ask('page.states.at(-1).said')}")
            time.sleep(0.02)

    def click(self, selector: str, text: str = "") -> None:
        """Clicks the first element that a selector names, with this text if one is given."""
        found = self.browser.driver.find_elements("css selector", selector)
        element = next(each for each in found if not text or text in each.text)
        self.ask(f"void document.querySelector({selector!r}).scrollIntoView({{ block: 'center' }})")
        self.browser.actions().move_to_element(element).click().perform()

    def fill(self, selector: str, text: str) -> None:
        """Puts a text into a field."""
        self.browser.driver.execute_script(f"document.querySelector({selector!r}).value = {text!r}")

    def press(self, *keys: str) -> None:
        """Presses keys, one after the other."""
        for key in keys:
            self.browser.press(key)

    # ---- What came of it

    def lines(self) -> list[str]:
        """The lines of the run."""
        return [line for _, line, _ in self.tab.lines()]

    def after(self, count: int) -> list[str]:
        """The lines of the run behind so many, once one is there and shown."""
        self.until(f"lastLine() > {count} && {READY}")
        return self.lines()[count:]

    def acted(self, act: Callable[[], object], wanted: str) -> str:
        """What is wrong with an act that has to ask this line, or nothing."""
        count = len(self.lines())
        act()
        asked = self.after(count)
        return "" if asked == [wanted] else f"it asks {asked}, wanted {wanted}"

    def fault(self) -> str:
        """What the page shows otherwise than the program replies, or nothing."""
        path = self.folder / "asked.script"
        path.write_bytes(self.tab.got("script"))
        words = [str(path), "--refused", *WORLD, "--program", self.program]
        asked = shown.Moment(page.session_of(page.parser().parse_args(words)), len(self.lines()))
        drawn = self.ask("shown()")
        return (
            shown.places_fault(drawn, asked) or shown.order_fault(drawn, asked) or shown.rows_fault(drawn, asked)
            or shown.actors_fault(drawn, asked, self.code)
        )

    def all_faults(self, acts: Sequence[tuple[Callable[[], object], str]]) -> str:
        """The first thing that is wrong with acts that have to ask these lines, or with what is shown then."""
        for act, wanted in acts:
            if fault := self.acted(act, wanted):
                return fault
        return self.fault()


# ---- Acts ------------------------------------------------------------------------------------------


def buttons_fault(acting: Acting) -> str:
    """What is wrong with the buttons of actors, or nothing."""
    card = "#chips > .chip[data-actor='{}'] .acts"

    def act(actor: int, text: str, value: str = "") -> Callable[[], None]:
        def acts() -> None:
            if value:
                acting.fill(f"{card.format(actor)} input", value)
            acting.click(f"{card.format(actor)} button", text)
        return acts

    return acting.all_faults([
        (act(1, "enqueue", "41"), "enq 1 41"), (act(1, "step"), "go 1"), (act(1, "step"), "go 1"),
        (act(2, "dequeue"), "deq 2"), (act(2, "step"), "go 2"), (act(3, "to the array", "5"), "aenq 3 5"),
        (act(3, "step"), "go 3"), (lambda: acting.click("#undo"), "undo"), (lambda: acting.click("#redo"), "redo"),
    ])


def keys_fault(acting: Acting) -> str:
    """What is wrong with the keys, or nothing."""
    press = acting.press
    fault = acting.all_faults([
        (lambda: press("1"), "go 1"), (lambda: press("u"), "undo"), (lambda: press("r"), "redo"),
        (lambda: press("/", *"len", "\ue007"), "len"), (lambda: press(*"show qtail", "\ue007"), "show qtail"),
    ])
    press("\ue00c")  # Escape
    acting.ask("void document.activeElement.blur()")
    press("\ue00e")  # PageUp
    if acting.ask("page.now") != acting.ask("page.states.length") - 2 or not acting.ask("!byId('past').hidden"):
        return fault or "PageUp doesn't go a line back"
    press("\ue00f")  # PageDown
    return fault or ("" if acting.ask(READY) and acting.ask("byId('past').hidden") else "PageDown doesn't go a line on")


def no_line_fault(acting: Acting) -> str:
    """What is wrong with a line that spells no command, and with completion, or nothing."""
    count = len(acting.lines())
    acting.press("/", *"go1", "\ue007")
    acting.until("byId('answer').textContent")
    said = acting.ask("byId('answer').textContent")
    if len(acting.lines()) != count or "go 1" not in said:
        return f"`go1` is answered {said}"
    acting.press(*"go ")
    acting.until("document.querySelectorAll('#words option').length >= 3")
    words = acting.ask("[...document.querySelectorAll('#words option')].map((it) => it.value)")
    acting.fill("#line", "")
    acting.press("\ue00c")
    return "" if words[:3] == ["go 1", "go 2", "go 3"] else f"`go ` is completed to {words}"


def menu_fault(acting: Acting) -> str:
    """What is wrong with the menu of a step, or nothing."""
    def chosen(step: int, text: str) -> Callable[[], None]:
        def choose() -> None:
            acting.ask(f"clickStep({step})")
            acting.click(".menu button", text)
        return choose

    fault = acting.all_faults([(chosen(3, "undo this alone"), "undo 3")])
    if fault or not acting.ask("document.querySelectorAll('.bar-to').length === 1"):
        return fault or "a refused undo has no bar"
    fault = acting.all_faults([
        (chosen(3, "where did the value"), "origin 3"), (chosen(16, "undo with what"), "roll 16"),
    ])
    live, count = acting.ask("page.states.at(-1).live"), len(acting.lines())
    fault = fault or acting.all_faults([(chosen(live + 2, "redo up to here"), "forward 2")])
    chosen(14, "who wrote this before")()
    if len(acting.lines()) != count + 1 or not acting.ask("document.activeElement.closest('#rows .row') !== null"):
        return fault or "it isn't shown who wrote before"
    return fault


def frames_fault(acting: Acting) -> str:
    """Which steps are framed that can't be undone alone, or aren't and can, or nothing: each is tried."""
    framed = acting.ask("framedSteps()")
    live, free = acting.ask("page.states.at(-1).live"), []
    path = acting.folder / "framed.script"
    for step in range(1, live + 1):
        path.write_bytes(acting.tab.got("script") + f"undo {step}\n".encode())
        words = [str(path), "--refused", *WORLD, "--program", acting.program]
        run = page.session_of(page.parser().parse_args(words))
        if run.replies_to(run.lines)[-1].startswith("at "):
            free.append(step)
    return "" if framed == free else f"steps {framed} are framed, and {free} can be undone alone"


def places_fault(acting: Acting) -> str:
    """What is wrong with clicks at places, or nothing."""
    def at(place: str) -> Callable[[], object]:
        return lambda: acting.ask(f"page.spots.get({place!r}).click()")

    names = ("value 0.0 0", "tail 0.0", "head 0.0", "qtail", "next 0.0")
    fault = acting.all_faults([(at(name), f"writer {name}") for name in names])
    marked = acting.ask("page.states.findLast((it) => it.text === 'writer value 0.0 0').named.length")
    return fault or ("" if marked == 1 else f"{marked} rows are marked as the last writer of a value")


def marks_fault(acting: Acting) -> str:
    """What is wrong with bookmarks, or nothing."""
    def compare() -> None:
        for name in ("a", "b"):
            acting.click(f"#marks input[value='{name}']")

    fault = acting.all_faults([
        (lambda: acting.click("#set button"), "mark a"), (lambda: acting.press("1"), "go 1"),
        (lambda: acting.click("#set button"), "mark b"), (compare, "same a b"),
        (lambda: acting.click("#marks .mark button", "a"), "goto a"),
        (lambda: acting.click("#marks .mark button", "×"), "drop a"),
    ])
    names = acting.ask("[...document.querySelectorAll('#marks input')].map((it) => it.value)")
    return fault or ("" if names == ["b"] else f"the bookmarks are {names}")


def chance_fault(acting: Acting) -> str:
    """What is wrong with steps at random, or nothing: the same seed walks the same way, and is kept."""
    walks = []
    for _ in range(2):
        begin = acting.ask("page.states.at(-1).live")
        count = len(acting.lines())
        for field, value in (("#count", "5"), ("#seed", "3"), ("#pace", "0")):
            acting.fill(field, value)
        acting.ask("void (byId('stops').checked = true)")
        acting.browser.driver.execute_script("byId('chance').requestSubmit()")
        acting.until(f"lastLine() > {count} && !live.walks && {READY}")
        walks.append(acting.lines()[count:])
        acting.ask(f"void submit('back {acting.ask('page.states.at(-1).live') - begin}')")
        acting.until("page.states.at(-1).text.startsWith('back ')")
    notes = [text for _, text in acting.tab.run()["notes"]]
    if walks[0] != walks[1] or not 1 <= len(walks[0]) <= 5:
        return f"seed 3 walks {walks}"
    return acting.fault() or ("" if any("seed 3" in note for note in notes) else f"the notes are {notes}")


def predict_fault(acting: Acting) -> str:
    """What is wrong with a reply that is hidden, or nothing."""
    count = len(acting.lines())
    acting.ask("void (byId('predict').checked = true)")
    acting.press("2")
    acting.until("!byId('question').hidden")
    hidden = len(acting.lines()) == count and acting.ask("byId('asked').textContent") == "go 2"
    acting.press("\ue007")
    asked = acting.after(count)
    acting.ask("void (byId('predict').checked = false)")
    return "" if hidden and asked == ["go 2"] else f"it is hidden: {hidden}, and then asked: {asked}"


def choice_fault(acting: Acting) -> str:
    """What is wrong with the buttons at a choice, or nothing."""
    acting.until("document.querySelector('.acts[data-kind=choice]')")
    texts = acting.ask("[...document.querySelectorAll('.acts[data-kind=choice] button')].map((it) => it.textContent)")
    if texts[:2] != ["close the ring", "draw again"]:
        return f"a choice has the buttons {texts}"
    actor = acting.ask("document.querySelector('.acts[data-kind=choice]').closest('.chip').dataset.actor")
    card = f"#chips > .chip[data-actor='{actor}'] .acts button"
    acts: list[tuple[Callable[[], object], str]] = [
        (lambda: acting.click(card, "draw again"), f"starve {actor} no"), (lambda: acting.press("u"), "undo"),
        (lambda: acting.click(card, "close the ring"), f"starve {actor} yes"),
    ]
    return next(filter(None, (acting.acted(*act) for act in acts)), "")


def people_fault(acting: Acting) -> str:
    """What is wrong with two tabs, or nothing: each is a viewer, and one is told that it took the other's step."""
    driver = acting.browser.driver
    first, count = driver.current_window_handle, len(acting.lines())
    acting.press("1")
    acting.after(count)
    driver.switch_to.new_window("tab")
    acting.size(*WIDTHS[-1])
    acting.open(acting.served.addresses[0])
    viewers = acting.ask("live.viewer")
    acting.press("u")
    acting.after(count + 1)
    acting.until("byId('answer').textContent")
    said = acting.ask("byId('answer').textContent")
    marks = acting.ask("document.querySelectorAll('#lines .asker').length")
    fault = acting.fault()
    driver.close()
    driver.switch_to.window(first)
    acting.until(f"lastLine() === {count + 2}")
    if acting.ask("live.viewer") == viewers or "takes back step" not in said or not marks:
        return f"both tabs are viewer {viewers}, or it is said {said}, with {marks} marks"
    return fault


def look_fault(acting: Acting) -> str:
    """What is wrong with the address that can only look, or nothing."""
    acting.open(acting.served.addresses[1])
    count = len(acting.lines())
    acting.press("1")
    seen = acting.ask("[...document.querySelectorAll('.acts button')].filter((it) => it.offsetParent).length")
    acting.open(acting.served.addresses[0])
    return "" if seen == 0 and len(acting.lines()) == count else f"{seen} buttons are there to look at"


def sharing_fault(acting: Acting) -> str:
    """What is wrong with downloads and links, or nothing: what a link opens are the same lines."""
    names = acting.ask("[...document.querySelectorAll('.panel a')].map((it) => it.getAttribute('href'))")
    sizes = {name: len(acting.tab.got(name)) for name in names}
    if sorted(names) != ["draft", "history", "page", "picture", "script", "trace"] or not all(sizes.values()):
        return f"the downloads are {sizes}"
    lines, link = acting.lines(), acting.browser.driver.execute_async_script(
        "const done = arguments[arguments.length - 1]; allLines().then((lines) => done(shortForm(lines)));"
    )
    acting.ask(f"void openText('link', {link!r})")
    acting.until(f"lastLine() === {len(lines)} && page.run.title === 'link'")
    return "" if acting.lines() == lines else f"{link} opens {acting.lines()}"


def reload_fault(acting: Acting) -> str:
    """What a reload shows otherwise, or nothing."""
    before, viewer = acting.ask("JSON.stringify(shown().rows)"), acting.ask("live.viewer")
    acting.open(acting.served.addresses[0])
    after, same = acting.ask("JSON.stringify(shown().rows)"), acting.ask("live.viewer") == viewer
    return "" if before == after and same else "a reload shows something else, or is another viewer"


def long_fault(acting: Acting) -> str:
    """What is wrong with a run of which only the last steps are listed, or nothing: at the top there are more, and
    earlier lines are shown when they are asked for."""
    listed = acting.ask("[page.run.above, page.states.at(-1).rows.length]")
    acting.ask("void (byId('lanes').scrollTop = 0)")
    acting.until(f"page.run.above < {listed[0]}")
    more = acting.ask("[page.run.above, page.states[page.now].rows.length]")
    acting.click("#last")
    acting.until(READY)
    acting.click("#lines .earlier button")
    acting.until("document.querySelector('#lines li[data-line]')")
    acting.ask("void document.querySelector('#lines li[data-line=\"500\"] button').click()")
    acting.until("live.isPast && page.states[page.now].line === 500")
    early = acting.ask("page.states[page.now].text")
    acting.click("#last")
    acting.until(READY)
    if sum(listed) != sum(more) or early != acting.lines()[499]:
        return f"{listed} steps are above and listed, then {more}, and line 500 is {early}"
    return acting.acted(lambda: acting.press("u"), "undo")


def tree_fault(acting: Acting) -> str:
    """What a screen reader doesn't find by its name, or nothing."""
    tree = acting.browser.tree()
    names = {node["name"] for node in tree}
    missing = [name for name in NAMES if not any(name in each for each in names)]
    nameless = [node["role"] for node in tree if node["role"] in ROLES and not node["name"]]
    steps = [name for name in names if name.startswith("actor ") and ": " in name]
    found = f"missing: {missing}; without a name: {nameless}; of actors: {steps}"
    return found if missing or nameless or not steps else ""


def layout_fault(acting: Acting) -> str:
    """Which text is cut off or overlaps another one at three widths, by day, in the dark and at twice the size."""
    for width, height in WIDTHS:
        for scheme in ("light", "dark"):
            media = {"features": [{"name": "prefers-color-scheme", "value": scheme}]}
            acting.browser.driver.execute_cdp_cmd("Emulation.setEmulatedMedia", media)
            acting.size(width, height)
            if faults := acting.ask("layoutFaults()"):
                return f"{scheme}, {width} x {height}: {faults[0]} ({len(faults)} in all)"
    acting.size(960, 540)  # what 1920 x 1080 is at 200 %
    faults = acting.ask("layoutFaults()")
    acting.size(*WIDTHS[-1])
    return f"at 200 %: {faults[0]} ({len(faults)} in all)" if faults else ""


ACTS: list[tuple[str, Callable[[Acting], str]]] = [
    ("the buttons of actors", buttons_fault), ("the keys", keys_fault), ("a line that is none", no_line_fault),
    ("bookmarks", marks_fault), ("steps at random", chance_fault), ("what is hidden", predict_fault),
    ("two tabs", people_fault), ("the address to look", look_fault), ("a reload", reload_fault),
    ("what a screen reader finds", tree_fault), ("downloads and links", sharing_fault),
]
ON_STEPS: list[tuple[str, Callable[[Acting], str]]] = [
    ("the menu of a step", menu_fault), ("which steps are framed", frames_fault), ("clicks at places", places_fault),
    ("three widths, the dark, twice the size", layout_fault),
]


def acts_of(
    browser: Any, folder: Path, given: argparse.Namespace, words: Sequence[str],
    acts: Sequence[tuple[str, Callable[[Acting], str]]],
) -> Iterator[tuple[str, str]]:
    """These acts in a page of its own, each a name and what is wrong, or nothing."""
    browser.driver.get("about:blank")
    browser.errors()  # those of a server that has ended
    with Served(given.program, folder, *words, "--look") as served:
        acting = Acting(browser, served, folder, given.program)
        for name, act in acts:
            try:
                yield f"live, {name}", act(acting) or browser.errors()
            except (TimeoutError, StopIteration) as fault:
                yield f"live, {name}", f"{type(fault).__name__} {fault}"


def live_checks(browser: Any, folder: Path, given: argparse.Namespace) -> Iterator[tuple[str, str]]:
    """The checks of a live page."""
    of = functools.partial(acts_of, browser, folder, given)
    yield from of(WORLD, ACTS)
    script = folder / "steps.script"
    script.write_text("".join(f"{line}\n" for line in FIVE))
    yield from of([str(script), *WORLD], ON_STEPS)
    script.write_text("".join(f"{line}\n" for line in random_run(LONG, actors=3, ring=2)))
    yield from of([str(script), *WORLD], [("a long run", long_fault)])
    lines = CHOICE.read_text().splitlines()
    first = next(place for place, line in enumerate(lines) if line.startswith("starve "))
    script.write_text("".join(f"{line}\n" for line in lines[:first]))
    yield from of([str(script), *CHOICE_WORLD], [("a choice", choice_fault)])
