"""A mirror for tests: it has the lines with their replies, and the last steps by who asked them, but draws nothing."""

from collections.abc import Sequence
from typing import Any

from lcrq_tools.program import Driven
from lcrq_tools.records import Counts, Made, read_reply

MOST = 4  # moments that are kept


class StubMirror:
    """Follows lines in a run of the program."""

    def __init__(
        self, words: Sequence[str], lines: Sequence[str] = (), viewers: Sequence[int] = (), followed: int = MOST,
        listed: int = MOST,
    ) -> None:
        self.driven = Driven(words)
        counts = Counts.read(self.driven.ask("len")[0])
        self.live, self.undone = [f"s{number}" for number in range(counts.live)], list[str]()
        self.rows: dict[str, dict[str, int]] = {name: {"viewer": 0} for name in self.live}
        self.moments: list[dict[str, Any]] = [self.moment(0, "", "", 0)]
        self.count, self.said = 0, list[str]()
        for line, viewer in zip(lines, viewers or [0] * len(lines)):
            self.obey(line, viewer)

    def moment(self, count: int, line: str, reply: str, viewer: int) -> dict[str, Any]:
        """A moment."""
        return {
            "line": count, "text": line, "reply": reply, "viewer": viewer, "live": len(self.live),
            "undone": len(self.undone), "rows": [0, [*self.live, *self.undone]], "linked": ["0.0"], "apart": [],
            "actors": {"1": None, "2": None}, "places": {}, "marks": [],
        }

    def obey(self, line: str, viewer: int = 0) -> str:
        """Follows a line: one that makes a step, `undo` or `back`; other ones move nothing."""
        reply = self.driven.ask(line)[0]
        self.said.append(reply)
        self.count += 1
        match read_reply(reply):
            case Made():
                self.live, self.undone = [*self.live, f"s{self.count}"], []
                self.rows[self.live[-1]] = {"viewer": viewer}
            case Counts(live) if line.split(" ")[0] in ("undo", "back"):
                self.live, self.undone = self.live[:live], [*self.live[live:], *self.undone]
        self.moments = [*self.moments, self.moment(self.count, line, reply, viewer)][-MOST:]
        return reply

    def replies(self) -> list[str]:
        """The replies to all lines."""
        return self.said

    def run(self) -> dict[str, Any]:
        """The last moments."""
        first = self.moments[0]["line"]
        return {"first": first, "above": 0, "rows": dict(self.rows), "moments": self.moments, "names": {"1": ""}}

    def change(self) -> dict[str, object] | None:
        """The last moment; nothing behind a bookmark."""
        moment = self.moments[-1]
        return None if moment["text"].startswith("mark") else {"moment": moment, "rows": dict(self.rows)}

    def close(self) -> None:
        """Ends the run."""
        self.driven.__exit__()
