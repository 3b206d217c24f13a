"""Plays the tabs of a browser for `checks/live_page.py`: each asks `live.py` over HTTP, and one follows the events.

`Served` is a running `live.py`. A tab's requests are those of the page. What follows the events puts whole moments
together, and fetches the run anew where it is told to.
"""

import http.client
import json
import os
import signal
import subprocess
import sys
import threading
from collections.abc import Mapping, Sequence
from contextlib import AbstractContextManager
from pathlib import Path
from typing import Any, Self
from urllib.parse import urlsplit

from lcrq_tools.live.folded import Moment, folded, moments_of
from lcrq_tools.live.server import CONTENT
from lcrq_tools.places import TOP
from lcrq_tools.program import Broken

SECONDS = 60.0  # after which what hasn't come is a fault
LAST_LINE = "Control-C ends it."

Answered = tuple[int, Mapping[str, str], bytes]


class Served(AbstractContextManager["Served"]):
    """A running server, which is killed at the end."""

    script = TOP / "tools" / "live.py"

    def __init__(self, built: str, folder: Path, *words: str) -> None:
        state = {"XDG_STATE_HOME": str(folder), "TMPDIR": str(folder), "PYTHONUNBUFFERED": "1"}
        self.child = subprocess.Popen(
            [sys.executable, str(self.script), *words, "--no-browser", "--program", built],
            env=os.environ | state, stdin=subprocess.DEVNULL, stdout=subprocess.PIPE, stderr=subprocess.STDOUT, text=True,
            start_new_session=True,
        )
        assert self.child.stdout  # a pipe
        self.said: list[str] = []
        while LAST_LINE not in self.said:
            if not (line := self.child.stdout.readline()):
                raise Broken(f"live.py ended with status {self.child.wait()}: {' '.join(self.said)}")
            self.said.append(line.removesuffix("\n"))
        self.addresses = [line.rpartition(" ")[2] for line in self.said if " http://" in line]
        self.kept = Path(next(line for line in self.said if "is kept in" in line).rpartition(" ")[2])

    def __exit__(self, *_: object) -> None:
        self.child.kill()
        self.child.communicate()

    @property
    def port(self) -> int:
        """Where it listens."""
        return urlsplit(self.addresses[0]).port or 0

    def tab(self, name: str = "tab-of-nobody", address: int = 0) -> "Tab":
        """A tab that opened one of the addresses."""
        return Tab(self.addresses[address], name)

    def end(self) -> tuple[int, str]:
        """Ends it by the signal that does what Control-C does; returns its status and what it said last."""
        self.child.send_signal(signal.SIGTERM)
        return self.left()

    def left(self) -> tuple[int, str]:
        """The status and the last words of a server that ends."""
        text, _ = self.child.communicate(timeout=SECONDS)
        return self.child.returncode, text.strip().rpartition("\n")[2]

    def children(self) -> list[int]:
        """The programs that it runs: first those of the desk."""
        names = (path for path in Path("/proc").iterdir() if path.name.isdecimal())
        stats = []
        for path in names:
            try:
                stats.append((path / "stat").read_text(encoding="latin-1").rpartition(") ")[2].split() + [path.name])
            except OSError:
                continue  # it has gone
        return sorted(int(stat[-1]) for stat in stats if int(stat[1]) == self.child.pid)


class Tab:
    """A tab of a browser at an address."""

    def __init__(self, address: str, name: str) -> None:
        parts = urlsplit(address)
        self.host, self.base, self.name, self.viewer = parts.netloc, parts.path, name, 0

    def asked(self, method: str, path: str, body: bytes | None = None, headers: Mapping[str, str] = {}) -> Answered:
        """The answer to a request."""
        connection = http.client.HTTPConnection(self.host, timeout=SECONDS)
        try:
            connection.request(method, path, body, dict(headers))
            answer = connection.getresponse()
            return answer.status, dict(answer.getheaders()), answer.read()
        finally:
            connection.close()

    def got(self, name: str) -> bytes:
        """What is at a name."""
        status, _, data = self.asked("GET", self.base + name)
        if status != 200:
            raise Broken(f"GET {name} has status {status}: {data.decode(errors='replace')}")
        return data

    def run(self, line: int | None = None) -> dict[str, Any]:
        """The run, or the part of it around a line."""
        run: dict[str, Any] = json.loads(self.got("run" if line is None else f"run?line={line}"))
        return run

    def lines(self) -> list[tuple[int, str, str]]:
        """The lines with who asked them and their replies."""
        return [(viewer, line, reply) for viewer, line, reply in json.loads(self.got("lines"))]

    def post(self, where: str, /, **fields: object) -> tuple[int, dict[str, Any]]:
        """The status and the fields of the answer to a POST."""
        headers = {"Origin": f"http://{self.host}", "Content-Type": CONTENT}
        status, _, data = self.asked("POST", self.base + where, json.dumps(fields).encode(), headers)
        return status, json.loads(data)

    def join(self, name: str = "") -> Self:
        """Makes the tab a viewer."""
        status, answer = self.post("join", tab=self.name, name=name)
        if status != 200:
            raise Broken(f"join has status {status}: {answer}")
        self.viewer = answer["viewer"]
        return self

    def ask(self, line: str) -> dict[str, Any]:
        """The answer to a line."""
        status, answer = self.post("ask", tab=self.name, viewer=self.viewer, line=line)
        if status != 200:
            raise Broken(f"`{line[:20]}` has status {status}: {answer}")
        return answer


class Follower(threading.Thread):
    """A tab that follows the events, and has each moment that it was told."""

    def __init__(self, tab: Tab) -> None:
        super().__init__(daemon=True)
        self.tab, self.moments = tab, dict[int, Moment]()
        self.rows: dict[str, Any] = {}
        self.above: dict[int, int] = {}  # of each moment
        self.fault, self.last = "", 0
        self.goal = threading.Event()  # set when `wanted` lines are known
        self.wanted = -1
        self.fetch()
        self.connection = http.client.HTTPConnection(tab.host, timeout=SECONDS)
        self.connection.request("GET", f"{tab.base}events?tab={tab.name}&last={self.event}")
        self.stream = self.connection.getresponse()

    def fetch(self) -> None:
        """Fetches the run."""
        run = self.tab.run()
        self.event, self.now = run["event"], run["above"]
        self.rows |= run["rows"]
        for moment in moments_of(run):
            self.take(moment)

    def take(self, moment: Moment) -> None:
        """Takes a moment."""
        self.last = moment["line"]
        if self.last not in self.moments:
            self.moments[self.last], self.above[self.last] = moment, self.now
        if self.last >= self.wanted >= 0:
            self.goal.set()

    def run(self) -> None:
        """Follows the events."""
        try:
            for line in iter(self.stream.readline, b""):
                if line.startswith(b"data: "):
                    self.hear(json.loads(line.removeprefix(b"data: ")))
        except (OSError, ValueError, KeyError, http.client.HTTPException, Broken) as fault:
            self.fault = repr(fault)

    def hear(self, event: dict[str, Any]) -> None:
        """Does what an event says."""
        if "fresh" in event and event["fresh"] > self.last:
            self.fetch()
        if "change" in event and event["line"] > self.last:
            if event["line"] != self.last + 1:
                self.fault = f"line {event['line']} comes behind line {self.last}"
            self.rows |= event["change"]["rows"]
            self.take(folded(self.moments[self.last], event["change"]["moment"]))

    def await_line(self, line: int) -> None:
        """Waits until so many lines are known."""
        self.wanted = line
        if self.last < line and not self.goal.wait(SECONDS):
            raise Broken(f"{self.last} of {line} lines were told: {self.fault}")


def at_once(acts: Sequence[threading.Thread]) -> None:
    """Lets threads run at once to their ends."""
    for act in acts:
        act.start()
    for act in acts:
        act.join(SECONDS * 5)
