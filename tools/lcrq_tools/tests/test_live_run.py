"""A live run: the desk and the mirror at once, and the file in which it is kept."""

import tempfile
import threading
import unittest
from pathlib import Path
from typing import Any
from unittest import mock

from lcrq_tools import history
from lcrq_tools.faults import Fault
from lcrq_tools.live import session
from lcrq_tools.live.desk import Desk
from lcrq_tools.live.kept import Keep, Kept, Note, free_path, is_kept, kept_in
from lcrq_tools.live.room import Room
from lcrq_tools.live.session import LiveRun, Over
from lcrq_tools.program import Broken
from lcrq_tools.tests.mirror_stub import StubMirror
from lcrq_tools.tests.program_stub import stub_program

TABS = ("tab-of-ann", "tab-of-bob")
OPENED = Kept("lesson", lines=["enq 1 7", "hello", "go 1"], viewers=[0, 0, 0], notes=(Note(3, "seed 7"),))


class WithProgram(unittest.TestCase):
    """What has a program, and a folder for a run."""

    def setUp(self) -> None:
        self.program = self.enterContext(stub_program())
        self.folder = Path(self.enterContext(tempfile.TemporaryDirectory()))
        self.path = self.folder / "a.history"
        self.events: list[dict[str, Any]] = []

    def begun(self, kept: Kept = Kept(), people: int = 2) -> LiveRun:
        """A run, which is ended with the test."""
        run = LiveRun(self.program, kept, people, StubMirror, self.events.append)
        self.addCleanup(run.close)
        return run

    def room(self, kept: Kept = Kept(), keep: Keep | None = None, people: int = 2) -> Room:
        """A room with a run, which is ended with the test."""
        room = Room(self.program, kept, people, StubMirror, keep or self.path)
        self.addCleanup(lambda: room.run.close())
        return room


class Desks(WithProgram):
    """The desk."""

    def test_replies_have_the_numbers_of_calls(self) -> None:
        with Desk(self.program, [], 2, ["enq 1 7", "hello"]) as desk:
            self.assertEqual(desk.replies(), [(1, "ok 1"), (None, "refused 22 BadLine")])
            self.assertEqual(desk.ask(2, "go 1"), (2, "ok 2"))
            self.assertEqual(desk.ask(1, "hello \xff"), (None, "refused 22 BadLine"))
            self.assertEqual(desk.end(), ["history 2", "3 enq 1 7", "2 go 1", "{}"])

    def test_a_program_that_ends_is_a_fault(self) -> None:
        with Desk(self.program, [], 1) as desk:
            self.assertEqual(desk.replies(), [])
            with self.assertRaises(Broken):
                desk.ask(1, "die")
        # the program may end before it opens the viewer's file
        with self.assertRaisesRegex(Broken, "^2 of 3 lines|^the program ended before it opened viewer-1$"):
            with Desk(self.program, [], 1, ["go 1", "die", "go 1"]) as desk:
                desk.replies()

    def test_a_bad_trace_is_refused_as_the_program_refuses_it(self) -> None:
        bad = self.folder / "bad.trace"
        bad.write_text("[]", encoding="ascii")
        with self.assertRaisesRegex(Broken, "^refused 27 BadTrace$"):
            Desk(self.program, ["--start", str(bad)], 1)


class Runs(WithProgram):
    """Lines in their order."""

    def test_a_line_that_is_no_call_is_not_in_the_run(self) -> None:
        run = self.begun(OPENED)
        self.assertEqual((run.left_out, [call.line for call in run.calls]), (1, ["enq 1 7", "go 1"]))
        self.assertEqual(run.notes, [Note(2, "seed 7")])
        answer = run.ask(1, "god 1")
        self.assertEqual((answer.call, answer.reply), (None, "refused 22 BadLine"))
        self.assertIn("did you mean `go 1`?", answer.expected)
        self.assertEqual(run.ask(1, "x" * 257).reply, "refused 23 LineTooLong")
        self.assertEqual(run.ask(1, "go 1\ngo 1").reply, "refused 22 BadLine")
        self.assertEqual(run.ask(1, "go \u20ac").reply, "refused 22 BadLine")
        self.assertEqual((len(run.calls), self.events), (2, []))

    def test_lines_of_two_viewers_come_in_the_order_of_the_calls(self) -> None:
        run = self.begun()
        run.keep = Keep(self.path, run.kept)
        answers: dict[int, list[int]] = {1: [], 2: []}

        def ask(viewer: int) -> None:
            for _ in range(50):
                number = run.ask(viewer, f"go {viewer}").call
                assert number
                self.assertIn(f"{viewer} go {viewer}\n" * (len(answers[viewer]) + 1), "".join(
                    f"{line}\n" for line in self.path.read_text(encoding="ascii").splitlines() if line[0] == str(viewer)
                ))
                answers[viewer].append(number)

        threads = [threading.Thread(target=ask, args=[viewer]) for viewer in answers]
        for thread in threads:
            thread.start()
        for thread in threads:
            thread.join()
        self.assertEqual(sorted(answers[1] + answers[2]), [*range(1, 101)])
        self.assertEqual([event["line"] for event in self.events], [*range(1, 101)])
        for viewer, numbers in answers.items():
            self.assertEqual([run.calls[number - 1].viewer for number in numbers], [viewer] * 50)
        run.end("over")
        self.assertEqual(history.read(str(self.path)).viewers, tuple(call.viewer for call in run.calls))

    def test_whose_step_a_bare_undo_took_is_said(self) -> None:
        run = self.begun()
        for viewer, line in ((1, "enq 1 7"), (2, "go 1"), (2, "go 1"), (1, "go 1")):
            run.ask(viewer, line)
        self.assertEqual(run.ask(1, "undo").took, "")
        self.assertEqual(run.ask(1, "back 2", "viewer {}".format).took, "steps 2, 3 of viewer 2")
        self.assertEqual(run.ask(2, "undo", lambda _: "Ann").took, "step 1 of Ann")
        self.assertEqual(run.ask(2, "undo").took, "")

    def test_a_mirror_that_replies_otherwise_ends_the_run(self) -> None:
        run = self.begun()
        run.keep = Keep(self.path, run.kept)
        with self.assertRaisesRegex(Over, "line 1, lie, is answered ok 99, and ok 98 by the mirror"):
            run.ask(1, "lie")
        with self.assertRaises(Over):
            run.ask(2, "go 1")
        self.assertEqual([*self.events[-1]], ["ended"])

    def test_a_call_that_never_comes_ends_the_run(self) -> None:
        run = self.begun()
        with mock.patch.object(session, "SECONDS", 0.01), run.turn, self.assertRaisesRegex(Over, "never answered"):
            run.await_turn(2)

    def test_a_program_that_ends_ends_the_run(self) -> None:
        run = self.begun(Kept(lines=["go 1"], viewers=[0]))
        run.keep = Keep(self.path, run.kept)
        with self.assertRaisesRegex(Over, "the program replies no more"):
            run.ask(1, "die")
        self.assertEqual(kept_in("a", self.path.read_text(encoding="ascii")).lines, ("go 1",))

    def test_what_a_page_fetches_is_of_one_moment(self) -> None:
        run = self.begun(Kept("t", lines=["go 1"] * 3, viewers=[0] * 3))
        self.assertEqual(run.rows_of(2, 9), b'[[0,"go 1","ok 2"],[0,"go 1","ok 3"]]')
        self.assertIn(b'"line":3,"title":"t","more":1', run.whole(lambda _: {"more": 1}))
        self.assertIn(b'"text":"go 1","reply":"ok 2"', run.past(1, lambda _: {}))


class Files(WithProgram):
    """What is kept."""

    def test_what_is_written_is_read_again(self) -> None:
        kept = Kept("a b", 3, 2, "", ("go 1", "undo"), (0, 2), 4, {2: "<b>"}, (Note(1, "seed 7"), Note(2, "n")))
        self.assertTrue(is_kept(kept.text()))
        self.assertEqual(kept_in("a", kept.text()), kept)
        over = Kept(trace='{"version":2}', people=1)
        self.assertEqual(kept_in("a", over.text()), over)

    def test_a_last_line_that_is_cut_is_dropped(self) -> None:
        text = Kept(lines=("go 1", "go 2"), viewers=(0, 1)).text()
        for cut in range(len(text) - len("1 go 2\n"), len(text)):
            self.path.write_text(text[:cut], encoding="ascii")
            self.assertEqual(kept_in("a", text[:cut]).lines, ("go 1",))
            keep = Keep(self.path, None)
            keep.add("1 undo")
            keep.close()
            self.assertEqual(kept_in("a", self.path.read_text(encoding="ascii")).lines, ("go 1", "undo"))

    def test_what_is_no_such_file_is_a_fault(self) -> None:
        for wrong in ("# note 7 8\n", "# name 1\n", "go 1\n", "# kept by live.py {}\n"):
            with self.subTest(wrong), self.assertRaises(Fault):
                kept_in("a", Kept().text() + wrong)

    def test_two_processes_cannot_have_it(self) -> None:
        keep = Keep(self.path, Kept())
        self.addCleanup(keep.close)
        with self.assertRaisesRegex(Fault, "another live.py"):
            Keep(self.path, None)

    def test_names_of_files_are_free(self) -> None:
        path = free_path(self.folder, "../<a>")
        self.assertEqual(path.parent, self.folder)
        self.assertRegex(path.name, r"^a-[0-9-]{17}\.history$")
        path.touch()
        self.assertFalse(free_path(self.folder, "../<a>").exists())


class Rooms(WithProgram):
    """People at a run."""

    def test_a_run_goes_on_where_it_was(self) -> None:
        room = self.room(Kept("t", 2, 4))
        self.assertEqual(room.join(TABS[0], "Ann").fields(), {"viewer": 1, "name": "Ann"})
        room.ask(TABS[0], 1, "go 1")
        room.note(TABS[0], 1, "seed 7")
        room.run.close()  # as when it is killed
        again = self.room(kept_in("a", self.path.read_text(encoding="ascii")), Keep(self.path, None))
        self.assertEqual([call.line for call in again.run.calls], ["go 1"])
        self.assertEqual((again.people.name(1), again.run.notes), ("Ann", [Note(1, "seed 7")]))
        self.assertEqual(again.join(TABS[1], "Ann").viewer, 1)
        again.ask(TABS[1], 1, "undo")
        self.assertEqual(again.kept_now().lines, ["go 1", "undo"])
        self.assertEqual(kept_in("a", self.path.read_text(encoding="ascii")).lines, ("go 1", "undo"))

    def test_nobody_asks_for_another_viewer(self) -> None:
        room = self.room()
        room.join(TABS[0], "")
        for tab, viewer in ((TABS[0], 2), (TABS[1], 1), ("", 1), ("", 0), (TABS[0], 0)):
            with self.subTest(tab), self.assertRaisesRegex(Fault, "this tab is not that viewer"):
                room.ask(tab, viewer, "go 1")
        for note in ("a\nb", "x" * 999, "\u20ac"):
            with self.subTest(note), self.assertRaisesRegex(Fault, "a note is one line"):
                room.note(TABS[0], 1, note)

    def test_another_run_is_opened_in_its_place(self) -> None:
        room = self.room()
        room.join(TABS[0], "Ann")
        room.ask(TABS[0], 1, "go 1")
        stream = room.look(TABS[0], "1.1")
        first = self.path.read_text(encoding="ascii")
        room.open("<new>", "# lcrqdb --ring 2\ngo 1 x3 # thrice\n", None, None)
        self.assertEqual((room.number, room.run.kept.ring, len(room.run.calls)), (2, 2, 3))
        self.assertEqual(self.path.read_text(encoding="ascii"), first)
        self.assertNotEqual(room.path, self.path)
        self.assertEqual(room.ask(TABS[0], 1, "go 1").call, 4)
        events = [stream.next(1) for _ in range(3)]
        self.assertEqual([event.name for event in events if event], ["", "2.3", "2.4"])
        for bad in ("hello", "# lcrqdb --trace /etc/passwd\ngo 1\n", "1 go 1\ngo 1\n"):
            with self.subTest(bad), self.assertRaises(Fault):
                room.open("bad", bad, None, None)
        self.assertEqual(room.number, 2)

    def test_the_end_is_told(self) -> None:
        room = self.room()
        stream = room.look("", "1.0")
        room.end("it has ended")
        told = [event.text for event in (stream.next(0), stream.next(0)) if event]
        self.assertEqual(told, ['{"people":{}}', '{"ended":"it has ended"}'])
        with self.assertRaisesRegex(Over, "it has ended"):
            room.run.ask(1, "go 1")

    def test_words_are_completed(self) -> None:
        room = self.room()
        self.assertEqual([*room.complete("g")], ["go", "goto"])
        self.assertEqual([*room.complete("show cell ")], ["0.0"])
        self.assertEqual([*room.complete("go ")], ["1", "2"])

    def test_a_tab_that_is_behind_gets_what_it_missed(self) -> None:
        room = self.room()
        room.join(TABS[0], "")
        for _ in range(3):
            room.ask(TABS[0], 1, "go 1")
        for last, names in (("1.1", ["1.2", "1.3"]), ("1.3", []), ("0.9", ["1.3"]), ("", ["1.3"])):
            stream, found = room.look("", last), []
            while event := stream.next(0):
                found.append(event.name)
            self.assertEqual([name for name in found if name], names)
            room.leave("", stream)
        self.assertEqual(room.streams.open, [])
