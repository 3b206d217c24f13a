"""What is said of a difference between a port and the model, and the files about it."""

import tempfile
import unittest
from collections.abc import Callable
from pathlib import Path
from unittest import mock

from lcrq_tools.draw import picture
from lcrq_tools.faults import Fault
from lcrq_tools.page import page
from lcrq_tools.port import port_replay, port_report
from lcrq_tools.port.port_compare import Difference
from lcrq_tools.port.port_report import About, phrase_of, said_of
from lcrq_tools.records import Actor, Place, Step
from lcrq_tools.start import starts
from lcrq_tools.tests.replay_stub import ENQUEUE, IDLE, LOG, START, Told, actor, compared, records_of, with_record

SHOWN = {"show tail 0.0": "is open 0"}
DREW = with_record(3, "4 1 E4 tail root; wrote; open 5")  # the log, up to a record whose answer differs


def about(*texts: str, told: Told | None = None) -> About:
    """What is said of the first difference of these records."""
    comparison = compared(*texts, replay=told or Told(shown=SHOWN))
    found = comparison.difference()
    assert found
    return About(comparison, found)


def differs(
    kind: str, port: str, model: str, point: str = "E4", *, state: Actor | None = None, text: str = LOG[3]
) -> Difference:
    """A difference of this kind."""
    return Difference(3, records_of(text)[0], 4, kind, port, model, point, None, state or actor(point))


class Phrases(unittest.TestCase):
    """Places and differences in words."""

    def test_what_is_at_a_place(self) -> None:
        rows = [
            ("cell 1.0 3", "0 5 none", "cell 3 of 1.0 is unsafe with index 5 and no value"),
            ("cell 1.0 3", "1 5 7", "cell 3 of 1.0 is safe with index 5 and the value 7"),
            ("index 0.0 1", "1 2", "cell 1 of 0.0 is safe with index 2"),
            ("value 0.0 1", "none", "cell 1 of 0.0 has no value"),
            ("value 0.0 1", "9", "cell 1 of 0.0 has the value 9"),
            ("tail 2.1", "open 4", "Tail of 2.1 is open 4"),
            ("acell 5", "top", "slot 5 of the array is top"),
            ("qhead", "1.0", "QHead is 1.0"),
            ("atail", "3", "ArrTail is 3"),
        ]
        for place, content, said in rows:
            self.assertEqual(phrase_of(Place.read(place), content), said)

    def test_both_sides_of_each_kind(self) -> None:
        starve = "refused 4 NeedsChoice"
        rows = [
            (("line", "E5", "E4"), "the port is at E5, the model at E4"),
            (("line", "E4", starve, "E10"), "the port is at E4, the model at E10, with starve to choose"),
            (("line", "", starve, "E10"), "the port is past the choice, the model at E10, with starve to choose"),
            (("line", "", "refused 3 Idle", "Idle"), "the port is in its call, the model in no call"),
            (("choice", "E11", starve, "E10"), "the port is at E11, the model at E10, whose record is missing"),
            (("choice", "", starve, "E10"), "the port is past the choice, the model at E10, whose record is missing"),
            (("reuse", "p was made anew", "QHead has it, since step 2"),
             "p was made anew while QHead has it, since step 2"),
            (("call", "deq", "refused 2 NotIdle"), "the port begins the call deq, the model is at E4 of another one"),
            (("reply", "empty", "", "Q13"), "at Q13 the port replied empty, the model goes on"),
            (("reply", "empty", "value 7", "Q5"), "at Q5 the port replied empty, the model value 7"),
            (("place", "head 0.0", "tail 0.0"), "at E4 the port accessed head 0.0, the model tail 0.0"),
            (("access", "read", "wrote"), "at E4 the port read, the model wrote"),
            (("answer", "open 1", "open 0"), "at E4 the port found open 1, the model open 0"),
            (("answer", "lost", "won", "E8"), "at E8 the port lost, the model won"),
            (("words", "t 1", "t 0"), "after E4 the port has t 1, the model t 0"),
            (("refused", "E4", "refused 6 CounterEnd"), "the model, at E4, can't make this step: refused 6 CounterEnd"),
        ]
        for sides, said in rows:
            self.assertEqual(said_of(differs(*sides)), said)

    def test_a_reply_in_a_record_of_its_own_is_after_the_last_step(self) -> None:
        for state, where in ((IDLE, "in no call"), (actor("E9"), "at E9")):
            found = differs("reply", "value 7", "", "E8", state=state, text="8 1 value 7")
            self.assertEqual(said_of(found), f"the port's call replied value 7 after E8, the model is {where}")

    def test_a_step_touches_a_place_that_is_a_part_of_its_own(self) -> None:
        rows = [
            ("cell 0.0 1; wrote; won; -", "value 0.0 1", True), ("index 0.0 1; read; 1 0; -", "value 0.0 1", False),
            ("whole 1.0; wrote; made 1.0; -", "tail 1.0", True), ("tail 1.0; read; open 0; -", "whole 0.0", False),
            ("-; none; -; -", "qtail", False), ("qtail; read; 0.0; -", "qtail", True),
        ]
        for did, place, wanted in rows:
            self.assertEqual(Step.read(f"step 1; go 1; {did}").place.overlaps(Place.read(place)), wanted)


class Texts(unittest.TestCase):
    """What is said of one difference."""

    def test_it_names_both_sides_and_the_steps_before(self) -> None:
        code = about(*DREW).code_lines
        text = [*about(*DREW).text()]
        self.assertEqual(text[:3], [
            "step 4: at E4 the port found open 5, the model open 0: Tail of 0.0 (root) is open 0, position 0",
            "  port   a.log:4: `4 1 E4 tail root; wrote; open 5`",
            "  before step 3, `go 1` at E2: next 0.0; read; none",
        ])
        self.assertEqual(text[3], "         E2: reads which segment follows 0.0: none, so 0.0 is the last")
        self.assertEqual(text[4], f"         E2   {code['E2'][0]}")
        self.assertIn("  model  at E4: tail 0.0; wrote; open 0; -", text)
        self.assertIn("         E4: adds 1 to the tail of ring 0.0, 0 → 1: actor 1 has position 0", text)
        self.assertIn(f"         E4   {code['E4'][0]}", text)
        self.assertIn(f"  words  {actor('E4')}", text)
        self.assertEqual(text[-4:], [
            "  next 0.0 was written by no step of this run",
            "    and touched since by step 3, `go 1` at E2: next 0.0; read; none",
            "  tail 0.0 was written by no step of this run",
            "  names  0.0, root",
        ])

    def test_a_segment_has_the_ports_name_beside_it_where_it_has_another(self) -> None:
        made = about(*DREW)
        made.names = {"0.0": "root", "1.0": "1.0", "2.0": "0x2"}
        self.assertEqual(made.with_names("0.0, 1.0, 0.0, 2.0, 12.0"), "0.0 (root), 1.0, 0.0, 2.0 (0x2), 12.0")
        self.assertEqual([*made.named(["next 2.0", "1.0", "0.0"])], ["  names  0.0, root; 2.0, 0x2"])
        self.assertEqual([*made.named(["next 1.0"])], [])

    def test_what_was_touched_since_is_named(self) -> None:
        made = about(*LOG, "8 1 empty")
        self.assertEqual([*made.touched(Place.read("tail 0.0"))], [
            "tail 0.0 was written by step 4, `go 1` at E4: tail 0.0; wrote; open 0",
            "  E4: adds 1 to the tail of ring 0.0, 0 → 1: actor 1 has position 0",
        ])
        self.assertEqual([*made.touched(Place.read("whole 0.0"))], [
            "whole 0.0 was written by no step of this run",
            "  and touched since by step 3, `go 1` at E2: next 0.0; read; none;"
            " step 4, `go 1` at E4: tail 0.0; wrote; open 0;"
            " step 5, `go 1` at E5: value 0.0 0; read; none;"
            " step 6, `go 1` at E6: index 0.0 0; read; 1 0;"
            " step 7, `go 1` at E8: cell 0.0 0; wrote; won; enqueued",
        ])
        with mock.patch.object(port_report, "TOUCHES", 1):
            self.assertIn("touched since by 4 more, then step 7, ", [*made.touched(Place.read("whole 0.0"))][1])

    def test_the_places_in_question_are_those_of_both_steps(self) -> None:
        self.assertEqual(about(*DREW).places(), [Place("next", "0.0"), Place("tail", "0.0")])
        self.assertEqual(about("1 1 E1 qtail").places(), [])


class Files(unittest.TestCase):
    """The files about a difference."""

    def test_the_script_ends_with_the_models_step(self) -> None:
        self.assertEqual(about(*DREW).script(), ["enq 1 7", "go 1", "go 1", "go 1"])
        self.assertEqual(about("1 1 enq 7", "2 1 deq").script(), ["enq 1 7"])

    def test_the_script_ends_with_the_step_whose_reply_differs(self) -> None:
        told = Told([*ENQUEUE, ("deq 2", "-; none; -; -", actor("Q1", "deq"))])
        made = about(*LOG, "8 2 deq", "9 1 empty", told=told)
        self.assertEqual((made.script(), told.count()), ([line for line, _, _ in ENQUEUE], 8))

    def test_the_start_is_that_before_the_step(self) -> None:
        made = about(*LOG, "8 1 empty")
        made.start()
        told = made.replay
        assert isinstance(told, Told)
        self.assertEqual((told.asked[-2:], told.made), (["back 1", "forward 1"], 7))

    def test_a_start_of_the_tools_own_is_laid_beside(self) -> None:
        made = about(*DREW)
        with tempfile.TemporaryDirectory() as name:
            folder = Path(name)
            self.assertEqual(made.options(folder), ["--actors", "1", "--ring", "2"])
            made.replay.options = ["load", "--", "a.trace"]
            self.assertEqual(made.options(folder), ["--trace", "a.trace"])
            (folder / "3.trace").write_text(starts.text_of(START), encoding="ascii")
            made.replay.options, made.replay.steps.before = ["load", "--", str(folder / "3.trace")], 3
            self.assertEqual(made.options(folder), ["--trace", str(folder / "from.trace")])
            one = (folder / "from.trace").read_text(encoding="ascii")
            self.assertEqual(one, starts.text_of(port_replay.trimmed(START, 1)))

    def test_files_are_written_and_named(self) -> None:
        draws = tool(lambda _: False)
        with (
            tempfile.TemporaryDirectory() as name,
            mock.patch.object(picture, "main", draws), mock.patch.object(page, "main", draws),
        ):
            said = [*about(*DREW).write(Path(name) / "a")]
            files = {path.name: path.read_text(encoding="ascii") for path in (Path(name) / "a").iterdir()}
        self.assertEqual(sorted(files), ["before.trace", "to.script"])
        self.assertEqual(files["to.script"], "enq 1 7\ngo 1\ngo 1\ngo 1\n")
        self.assertIn('"version": 2', files["before.trace"])
        ends = [it.partition(f"{name}/a/")[2] for it in said]
        wanted = ["to.script: the 4 steps to there", "before.trace: the start before the step"]
        self.assertEqual(ends, [*wanted, "steps.svg: the last steps", "steps.html: the last steps"])

    def test_the_page_opens_at_the_difference_and_shows_the_ports_side(self) -> None:
        with tempfile.TemporaryDirectory() as folder:
            file = Path(folder) / "steps.html"
            file.write_text("<head>\n</head>\n<body>\n<header>\n</header>\n", encoding="utf-8")
            about(*DREW).open_at(4, file)
            text = file.read_text(encoding="utf-8")
        self.assertIn('"#line=4";</script>\n</head>', text)
        self.assertIn("the port differs.</strong> step 4: at E4 the port found open 5, the model open 0", text)
        self.assertIn("<code>4 1 E4 tail root; wrote; open 5</code></p>", text)

    def test_the_folder_loses_what_an_older_run_left_there(self) -> None:
        with tempfile.TemporaryDirectory() as name:
            for file in ("to.script", "steps.svg", "mine"):
                (Path(name) / file).write_text("old", encoding="ascii")
            port_report.emptied(Path(name))
            self.assertEqual([path.name for path in Path(name).iterdir()], ["mine"])
            with self.assertRaises(FileExistsError):
                port_report.emptied(Path(name) / "mine")

    def test_a_page_that_fails_says_why(self) -> None:
        for fault, said in ((KeyError("-"), "no a.html: KeyError: '-'"), (Fault(""), "no a.html: Fault")):
            draws = mock.Mock(side_effect=fault)
            self.assertEqual(about(*DREW).drawn(draws, [], [[]], Path("a.html")), said)

    def test_the_picture_has_the_last_steps_in_question(self) -> None:
        made = about(*DREW)
        places = ["--actor", "1", "--places", "next 0.0,tail 0.0"]
        self.assertEqual(made.chosen_rows(4), ["--from", "1", "--to", "4", *places])
        with mock.patch.object(port_report, "ROWS", 2):
            self.assertEqual(made.chosen_rows(4)[:4], ["--from", "2", "--to", "4"])
            self.assertEqual([*made.windows(4)][-1], ["--from", "3", "--to", "4"])

    def test_a_picture_that_fails_is_tried_otherwise(self) -> None:
        made = about(*DREW)
        parts = [["--from", "9"], ["--from", "1"]]
        draws = tool(lambda words: "9" in words)
        self.assertEqual(made.drawn(draws, [], parts, Path("a.svg")), "a.svg: the last steps")
        self.assertEqual(len(draws.call_args_list), 2)
        self.assertEqual(made.drawn(tool(lambda _: True), [], parts, Path("a.svg")), "no a.svg: no such step")


def tool(refuses: Callable[[list[str]], bool]) -> mock.Mock:
    """A tool that draws, unless it refuses its words."""
    def draw(words: list[str]) -> int:
        if refuses(words):
            raise Fault("no such step")
        return 0

    return mock.Mock(side_effect=draw)
