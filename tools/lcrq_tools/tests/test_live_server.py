"""The server of a live page: what it answers, and whom it doesn't."""

import http.client
import json
import socket
import threading
import unittest
from pathlib import Path
from typing import Any
from unittest import mock

from lcrq_tools.checks import live_doors
from lcrq_tools.checks.live_clients import Tab
from lcrq_tools.faults import Fault
from lcrq_tools.live import downloads, server, waiting
from lcrq_tools.live.kept import Kept, Note
from lcrq_tools.live.live import parser, said_at_start
from lcrq_tools.live.opened import opened_text
from lcrq_tools.live.people import GONE, People
from lcrq_tools.live.server import ADDRESS, CONTENT, MOST_HANDLERS, Server
from lcrq_tools.live.streams import MOST_BEHIND, Event, Streams
from lcrq_tools.live.waiting import MOST_BODY, MOST_HEAD, MOST_WAITING, Begun
from lcrq_tools.tests.stubs import NO_PROGRAM
from lcrq_tools.tests.test_live_run import TABS, WithProgram

Answered = tuple[int, dict[str, str], bytes]


class WithServer(WithProgram):
    """What has a server."""

    def setUp(self) -> None:
        super().setUp()
        self.server = Server(self.room(), 0, True)
        self.addCleanup(self.server.server_close)
        thread = threading.Thread(target=self.server.serve_forever, args=[0.05], daemon=True)
        thread.start()
        self.addCleanup(self.server.shutdown)
        self.base, self.host = f"/{self.server.token}/", self.server.hosts[0]
        self.address = (ADDRESS, self.server.port)

    def asked(self, method: str, path: str, body: bytes | None = None, **headers: str) -> Answered:
        """The status, the headers and the body of an answer."""
        connection = http.client.HTTPConnection(*self.address, timeout=20)
        connection.putrequest(method, path, skip_host=True)
        sent = {"Host": self.host} | {name.replace("_", "-"): value for name, value in headers.items()}
        if body is not None and "Content-Length" not in sent:
            sent["Content-Length"] = str(len(body))
        for name, value in sent.items():
            connection.putheader(name, value)
        connection.endheaders(body)
        answer = connection.getresponse()
        data = answer.read()
        connection.close()
        return answer.status, {name.lower(): value for name, value in answer.getheaders()}, data

    def posted(self, name: str, fields: object, **headers: str) -> tuple[int, Any]:
        """The status and the body of the answer to a POST."""
        own = {"Origin": f"http://{self.host}", "Content_Type": CONTENT}
        status, _, data = self.asked("POST", self.base + name, json.dumps(fields).encode(), **own | headers)
        return status, json.loads(data)

    def raw(self, data: bytes) -> bytes:
        """What comes back for these bytes."""
        with socket.create_connection(self.address, 20) as connection:
            connection.sendall(data)
            pieces = []
            while piece := connection.recv(1 << 16):
                pieces.append(piece)
        return b"".join(pieces)


class Answers(WithServer):
    """What whoever is let in gets."""

    def test_a_line_is_asked_and_kept(self) -> None:
        self.assertEqual(self.posted("join", {"tab": TABS[0], "name": "A\nnn"}), (200, {"viewer": 1, "name": "A nn"}))
        asked = {"tab": TABS[0], "viewer": 1, "line": "go 1"}
        self.assertEqual(self.posted("ask", asked), (200, {"call": 1, "reply": "ok 1"}))
        self.assertEqual(self.posted("ask", asked | {"line": "hello"})[1]["call"], None)
        self.assertEqual(self.posted("note", asked | {"text": "seed 7"}), (200, {}))
        self.assertIn("\n1 go 1\n", self.path.read_text(encoding="ascii"))
        run = json.loads(self.asked("GET", f"{self.base}run")[2])
        self.assertEqual((run["line"], run["event"], run["names"], run["can_ask"]), (1, "1.1", {"1": "A nn"}, True))
        self.assertEqual((run["kept"], run["notes"], run["viewers"]), ("a.history", [[1, "seed 7"]], 2))
        self.assertEqual(self.asked("GET", f"{self.base}lines")[2], b'[[1,"go 1","ok 1"]]')
        self.assertEqual(self.asked("GET", f"{self.base}lines?from=2&to=9")[2], b"[]")
        self.assertEqual(json.loads(self.asked("GET", f"{self.base}run?line=1")[2])["line"], 1)
        self.assertEqual(self.posted("complete", {"line": "g"}), (200, {"words": ["go", "goto"]}))

    def test_the_page_lets_only_its_own_script_run(self) -> None:
        status, headers, data = self.asked("GET", self.base)
        policy = headers["content-security-policy"]
        word = policy.partition("script-src 'nonce-")[2].partition("'")[0]
        self.assertEqual((status, headers["content-type"]), (200, "text/html; charset=utf-8"))
        self.assertIn(f'<script nonce="{word}">'.encode(), data)
        self.assertNotIn(word.encode(), self.asked("GET", self.base)[2])
        for part in ("default-src 'none'", "connect-src 'self'", "form-action 'none'", "frame-ancestors 'none'"):
            self.assertIn(part, policy)
        for name, value in (
            ("x-content-type-options", "nosniff"), ("referrer-policy", "no-referrer"), ("cache-control", "no-store"),
            ("cross-origin-resource-policy", "same-origin"),
        ):
            self.assertEqual(headers[name], value)

    def test_files_are_handed_out(self) -> None:
        self.assertEqual(self.posted("open", {"name": "a/../<b>", "text": "go 1\nundo\n"})[0], 200)
        status, headers, data = self.asked("GET", f"{self.base}script")
        self.assertEqual((status, data), (200, b"go 1\nundo\n"))
        self.assertEqual(headers["content-disposition"], 'attachment; filename="a-b.script"')
        self.assertEqual(self.asked("GET", f"{self.base}history")[2].splitlines()[2:], [b"0 go 1", b"0 undo"])
        self.assertEqual(self.asked("GET", f"{self.base}trace")[2], b'{"events": 0}\n')
        self.assertEqual(self.asked("GET", f"{self.base}draft")[2], b"# lcrqdb\ngo 1\nundo\n")
        status, _, data = self.asked("GET", f"{self.base}picture")
        self.assertEqual(status, 400)
        self.assertNotIn(b"/tmp", data)

    def test_whoever_can_only_look_asks_nothing(self) -> None:
        self.base = f"/{self.server.look_token}/"
        self.assertEqual(self.asked("GET", self.base)[0], 200)
        self.assertFalse(json.loads(self.asked("GET", f"{self.base}run")[2])["can_ask"])
        self.assertEqual(self.posted("join", {"tab": TABS[0]})[1]["viewer"], 0)
        for name in ("ask", "note", "open", "end", "complete"):
            self.assertEqual(self.posted(name, {"tab": TABS[0], "viewer": 1, "line": "go 1"})[0], 403)
        self.assertEqual(len(self.server.room.run.calls), 0)

    def test_the_addresses_are_said_at_the_start(self) -> None:
        rows = said_at_start(self.server).split("\n")
        self.assertEqual(rows[0], f"the page is http://{self.server.hosts[0]}/{self.server.token}/")
        self.assertEqual(rows[1], f"to look only: http://{self.server.hosts[0]}/{self.server.look_token}/")
        self.assertEqual(rows[2:], [f"the run is kept in {self.path}", "Control-C ends it."])

    def test_events_come_with_their_numbers(self) -> None:
        with socket.create_connection(self.address, 20) as connection:
            connection.sendall(f"GET {self.base}events?last=1.0 HTTP/1.1\r\nHost: {self.host}\r\n\r\n".encode())
            text = connection.makefile("rb")
            while text.readline() != b"data: {\"people\":{}}\n":
                pass
            self.posted("join", {"tab": TABS[0], "name": "<i>"})
            self.posted("ask", {"tab": TABS[0], "viewer": 1, "line": "go 1"})
            rows = [text.readline() for _ in range(7)]
            text.close()
        self.assertEqual(json.loads(rows[2][6:])["people"], {"1": {"name": "<i>", "here": False}})
        self.assertEqual(rows[4], b"id: 1.1\n")
        self.assertEqual(json.loads(rows[5][6:])["change"]["moment"]["reply"], "ok 1")


class Refusals(WithServer):
    """What isn't let in."""

    def test_what_is_refused_of_the_program_is_refused_here(self) -> None:
        tab = Tab(f"http://{self.host}{self.base}", TABS[0]).join()
        for what, status, method, path, body, sent in live_doors.refusals(tab):
            with self.subTest(what):
                self.assertEqual(tab.asked(method, path, body, sent)[0], status)

    def test_the_other_name_of_the_host_is_let_in(self) -> None:
        self.host = self.server.hosts[1]
        self.assertEqual(self.asked("GET", self.base)[0], 200)
        self.assertEqual(self.posted("join", {"tab": TABS[0]}, Origin=f"http://{self.server.hosts[0]}")[0], 403)

    def test_a_body_that_is_too_long(self) -> None:
        self.assertEqual(self.posted("open", {"text": "x" * MOST_BODY})[0], 413)
        self.assertEqual(self.posted("join", {"tab": TABS[0]})[0], 200)

    def test_a_head_without_an_end(self) -> None:
        self.assertIn(b" 431 ", self.raw(b"GET / HTTP/1.1\r\n" + b"A: b\r\n" * MOST_HEAD))
        with mock.patch.object(waiting, "SECONDS", 0.2):
            self.assertIn(b" 408 ", self.raw(b"GET / HTTP/1.1\r\nHost: "))
        for bad in (b"\r\n\r\n", b"GET\r\n\r\n", b"GET / HTTP/9.9\r\n\r\n", b"\0\r\n\r\n"):
            self.assertNotIn(b"<html>", self.raw(bad))

    def test_many_connections_leave_room_for_others(self) -> None:
        idle = [socket.create_connection(self.address, 20) for _ in range(MOST_WAITING + 50)]
        try:
            self.assertEqual(self.asked("GET", self.base)[0], 200)
            self.assertIn(b" 503 ", idle[0].recv(1 << 16))
        finally:
            for connection in idle:
                connection.close()

    def test_too_many_requests_at_once_are_refused(self) -> None:
        for _ in range(MOST_HANDLERS):
            self.server.handlers.acquire()
        self.assertEqual(self.asked("GET", self.base)[0], 503)
        for _ in range(MOST_HANDLERS):
            self.server.handlers.release()
        self.assertEqual(self.asked("GET", self.base)[0], 200)
        with self.server.makers, mock.patch.object(server, "SECONDS", 0.01):
            self.assertEqual([self.asked("GET", self.base + name)[0] for name in ("run?line=0", "script")], [503, 503])
            self.assertEqual(self.asked("GET", f"{self.base}run")[0], 200)
        self.assertEqual(self.asked("GET", f"{self.base}run?line=0")[0], 200)


class Parts(unittest.TestCase):
    """What needs no server."""

    def test_a_request_is_whole_with_its_body(self) -> None:
        begun = Begun(0.0)
        for piece in (b"POST / HTTP/1.1\r\nCont", b"ent-LENGTH: 3\r\n\r", b"\nab"):
            begun.take(piece)
            self.assertFalse(begun.is_whole())
        begun.take(b"c")
        self.assertTrue(begun.is_whole())

    def test_a_tab_keeps_its_viewer_and_one_that_is_gone_loses_it(self) -> None:
        people = People(2, {2: "Ann"})
        with mock.patch("time.monotonic", lambda: 100.0):
            self.assertEqual([people.join(tab, "") for tab in ("a", "b", "a", "c")], [1, 2, 1, 0])
            people.come("a")
            self.assertEqual(people.shown()["1"], {"name": "viewer 1", "here": True})
            self.assertEqual(people.shown()["2"], {"name": "viewer 2", "here": False})
        with mock.patch("time.monotonic", lambda: 101.0 + GONE):
            self.assertEqual([people.join(tab, "Bob") for tab in ("d", "e", "a", "b")], [2, 0, 1, 0])
            self.assertEqual(people.names(), {"1": "Bob", "2": "Bob"})

    def test_a_slow_tab_is_dropped(self) -> None:
        streams = Streams()
        now = Event.of("1.0", {})
        slow, fast = streams.begin("1.0", now), streams.begin("1.0", now)
        for number in range(MOST_BEHIND + 1):
            streams.publish(Event.of(f"1.{number}", {}))
            self.assertTrue(fast.next(0))
        self.assertEqual((slow.is_dropped, fast.is_dropped, streams.open), (True, False, [fast]))

    def test_a_text_says_what_it_is(self) -> None:
        self.assertEqual(opened_text("a", '{\n "version": 2}').trace, '{ "version": 2}')
        self.assertEqual(opened_text("a", "go 1\nundo\n").lines, ["go 1", "undo"])
        draft = opened_text("a", "# lcrqdb --ring 2\n\ngo 1 x2 # twice\n", 3)
        self.assertEqual((draft.lines, draft.viewers, draft.actors, draft.ring), (["go 1", "go 1"], [0, 0], 3, 2))
        calls = opened_text("a", "1 go 1\n2 undo\n")
        self.assertEqual((calls.lines, calls.viewers), (("go 1", "undo"), (1, 2)))
        self.assertEqual(opened_text("b", opened_text("a", "2 undo\n").text()).viewers, (2,))

    def test_of_a_long_run_the_end_is_drawn(self) -> None:
        def part(tool: str, lines: int, live: int) -> list[str]:
            kept = Kept(lines=["len"] * lines, viewers=[0] * lines)
            return downloads.part_of(tool, downloads.Source("", kept, live, Path()))

        self.assertEqual([part("page", 400, 0), part("page", 405, 0)], [[], ["--lines", "6:405"]])
        self.assertEqual([part("picture", 900, 100), part("picture", 1, 105)], [[], ["--from", "6"]])

    def test_a_draft_has_the_notes(self) -> None:
        kept = Kept("t", 2, None, "", ["go 1", "undo"], [1, 0], notes=(Note(1, "seed 7"), Note(2, "end")))
        self.assertEqual(downloads.draft_of(kept), b"# lcrqdb --actors 2\ngo 1\n# seed 7\nundo\n# end\n")

    def test_the_command_line(self) -> None:
        arguments = parser().parse_args(["a.script", "--viewers", "3", "--no-browser", "--program", NO_PROGRAM])
        self.assertEqual((arguments.script, arguments.viewers, arguments.browses), ("a.script", 3, False))
        self.assertEqual((arguments.look, arguments.port, arguments.keep), (False, 0, None))
        for words in (["--viewers", "64"], ["--viewers", "0"], ["--port", "65536"]):
            with self.subTest(words), self.assertRaises(Fault):
                parser().parse_args([*words, "--program", NO_PROGRAM])
