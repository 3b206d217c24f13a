"""The log of a port: the grammar of its records, the order of several logs, and names."""

import re
import tempfile
import unittest
from pathlib import Path

from lcrq_tools import model
from lcrq_tools.checks.changed_logs import UNREADABLE
from lcrq_tools.port import port_log
from lcrq_tools.port.port_log import Names, Record, Reuse, Unreadable
from lcrq_tools.port.port_stream import Logs, read_logs

LABELS = set(model.read(model.PAGE.read_text(encoding="utf-8"))[0])


def record(text: str) -> Record:
    """The record of a line."""
    return port_log.record_of("a.log:1", text, LABELS)


class Records(unittest.TestCase):
    """One record."""

    def test_a_call_has_its_value(self) -> None:
        one = record("1 T0 enq 0x10")
        self.assertEqual((one.stamp, one.name, one.kind, one.call), (1, "T0", "call", "enq 16"))
        one.actor = 3
        self.assertEqual(one.line(), "enq 3 16")
        self.assertEqual(record("2 T0 deq").call, "deq")

    def test_a_step_by_its_label(self) -> None:
        one = record("7 2 E8 cell 0.0 1; wrote; won; enqueued")
        self.assertEqual((one.kind, one.label, one.place, one.access), ("step", "E8", ("cell", "0.0", "1"), ("wrote",)))
        self.assertEqual((one.answer, one.reply), (("won",), ("enqueued",)))
        one.actor = 2
        self.assertEqual(one.line(), "go 2")

    def test_a_step_by_its_place_alone(self) -> None:
        one = record("7 2 tail 0.0; read; open 3; t 3 closed no")
        self.assertEqual((one.label, one.place, one.answer), ("", ("tail", "0.0"), ("open", "3")))
        self.assertEqual(one.words, ("t", "3", "closed", "no"))

    def test_what_is_left_out_is_empty(self) -> None:
        one = record("7 2 - qtail; -; -")
        self.assertEqual((one.label, one.place, one.access, one.answer), ("", ("qtail",), (), ()))

    def test_the_choice_of_the_schedule(self) -> None:
        for text in ("9 1 E10 yes", "9 1 starve yes"):
            one = record(text)
            one.actor = 1
            self.assertEqual((one.choice, one.line()), ("yes", "starve 1 yes"))

    def test_a_reply_of_a_call(self) -> None:
        self.assertEqual((record("9 1 value 7").kind, record("9 1 value 7").reply), ("reply", ("value", "7")))
        self.assertEqual(record("9 1 empty").reply, ("empty",))

    def test_a_number_is_written_as_the_program_writes_it(self) -> None:
        words = ["0x1F", "007", "18446744073709551615", "18446744073709551616", "-1", "1_0", ""]
        self.assertEqual([port_log.number_of(it) for it in words], ["31", "7", "18446744073709551615", "", "", "", ""])


class Merged(unittest.TestCase):
    """Several logs."""

    def read(self, *logs: str) -> Logs:
        """What is read of these logs."""
        with tempfile.TemporaryDirectory() as folder:
            names = [str(Path(folder) / f"{at}.log") for at in range(len(logs))]
            for name, log in zip(names, logs):
                Path(name).write_text(log, encoding="utf-8")
            return read_logs(names)

    def test_logs_are_merged_by_stamp(self) -> None:
        logs = self.read("# a comment\n1 a deq\n\n4 a Q1\n", "2 b enq 7\n3 b E1\n")
        self.assertEqual([(it.stamp, it.actor) for it in logs.records], [(1, 1), (2, 2), (3, 2), (4, 1)])
        self.assertEqual((logs.named, logs.cuts), (["a is 1", "b is 2"], []))

    def test_numbers_of_actors_stay(self) -> None:
        logs = self.read("1 3 deq\n2 16 deq\n")
        self.assertEqual(([it.actor for it in logs.records], logs.named), ([3, 16], []))

    def test_a_fault_names_file_line_and_text(self) -> None:
        with self.assertRaisesRegex(Unreadable, r"0\.log:2: `2 a nowhere 1`: no call, label, place or reply"):
            self.read("1 a deq\n2 a nowhere 1\n")

    def test_a_wrong_record_is_refused(self) -> None:
        for log, said in UNREADABLE:
            with self.subTest(log[:40]), self.assertRaisesRegex(Unreadable, re.escape(said.removeprefix("a.log"))):
                self.read(f"{log}\n")

    def test_two_actors_may_share_a_stamp(self) -> None:
        logs = self.read("1 1 deq\n1 1 Q1\n", "1 2 deq\n")
        self.assertEqual([(it.actor, it.text) for it in logs.records], [(1, "1 1 deq"), (1, "1 1 Q1"), (2, "1 2 deq")])

    def test_a_stamp_may_be_two(self) -> None:
        logs = self.read("5-9 1 deq\n", "3-20 2 deq\n4 2 Q1\n")
        self.assertEqual([(it.stamp, it.after) for it in logs.records], [(3, 20), (4, 4), (5, 9)])
        for stamp in ("9-5", "5-", "-5", "5-6-7", "5-x", "5--6"):
            said = "the stamp after it, 5, is before the one before it, 9" if stamp == "9-5" else "a record is a stamp"
            with self.subTest(stamp), self.assertRaisesRegex(Unreadable, said):
                record(f"{stamp} 1 deq")

    def test_a_world_has_sixteen_actors(self) -> None:
        with self.assertRaisesRegex(Unreadable, "^the logs have 17 actors, and a world has 16 at most$"):
            self.read("".join(f"{at} T{at} deq\n" for at in range(17)))

    def test_a_cut_log_is_read_to_its_last_whole_line(self) -> None:
        logs = self.read("1 a deq\n3 a Q1 p; -;\n", "2 b deq\n4 b Q1", "# all", "5 a Q2 0\n6 a Q3 none\n# end")
        self.assertEqual([it.stamp for it in logs.records], [1, 2, 3, 5, 6])
        ends = [it.rpartition("/")[2] for it in logs.cuts]
        self.assertEqual(ends, ["0.log:2 ends behind a `;`", "1.log:2 has no line feed and is not compared"])
        with self.assertRaisesRegex(Unreadable, "no record; .*0.log:1 has no line feed"):
            self.read("1 a deq")

    def test_a_long_record_that_can_not_be_read_is_shown_in_part(self) -> None:
        with self.assertRaisesRegex(Unreadable, r"0\.log:1: `1{100}\.\.\.`: a word of it has 5,000 letters"):
            self.read(f"{'1' * 5000} a deq\n")

    def test_standard_input_is_read_once(self) -> None:
        with self.assertRaisesRegex(Unreadable, "^standard input can be read once, and - is given twice$"):
            read_logs(["-", "-"])

    def test_an_empty_or_missing_log_is_a_fault(self) -> None:
        with self.assertRaisesRegex(Unreadable, "no record$"):
            self.read("# nothing\n")
        with self.assertRaisesRegex(OSError, "No such file or directory: .nowhere.log.$"):
            read_logs(["nowhere.log"])


class Meanings(unittest.TestCase):
    """Which names of a port mean which segments."""

    def test_a_name_is_learned_when_it_is_seen(self) -> None:
        names = Names()
        self.assertTrue(names.agree(["0x55aa", "3"], ["0.0", "3"]))
        self.assertTrue(names.agrees("0x55aa", "0.0"))
        self.assertFalse(names.agrees("0x55aa", "1.0"))
        self.assertFalse(names.agrees("0x66bb", "0.0"))
        self.assertEqual(names.meant(["0x55aa", "NULL", "7"]), "0.0 none 7")

    def test_a_name_may_come_to_mean_another_segment(self) -> None:
        names = Names()
        names.learn("p", "0.0")
        names.learn("p", "1.0")
        self.assertEqual((names.segment_of("p"), names.names), ("1.0", {"1.0": "p"}))
        self.assertEqual(names.again, Reuse("p", "0.0", "1.0"))

    def test_a_first_use_of_another_segments_name_is_noted_and_not_learned(self) -> None:
        names = Names()
        names.learn("p", "0.0")
        self.assertFalse(names.agrees("p", "1.0"))
        self.assertEqual((names.again, names.segment_of("p")), (Reuse("p", "0.0", "1.0"), "0.0"))

    def test_the_models_own_names_are_no_names_that_are_used_again(self) -> None:
        names = Names()
        names.learn("1.0", "1.0")
        self.assertFalse(names.agrees("1.0", "2.0"))
        self.assertFalse(names.agrees("1.0", "0.0"))
        self.assertIsNone(names.again)

    def test_nothing_is_no_name(self) -> None:
        names = Names()
        self.assertTrue(names.agrees("(nil)", "none"))
        self.assertFalse(names.agrees("(nil)", "0.0"))
        self.assertTrue(names.agrees("0x10", "16"))
        self.assertFalse(names.agree(["1"], ["1", "2"]))
