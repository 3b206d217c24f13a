"""What shows a bug, or something that is meant, in the log of a port; and whether a machine has one clock."""

import tempfile
import unittest
from pathlib import Path
from unittest import mock

from lcrq_tools.checks import allowed_logs, ports
from lcrq_tools.checks.port_runs import steps_with
from lcrq_tools.checks.ports import BUGS, signs
from lcrq_tools.tests.replay_stub import LOG, records_of


class Signs(unittest.TestCase):
    """What a record has that may show a bug."""

    def test_a_record_has_its_label_its_answer_and_its_reply(self) -> None:
        rows = {LOG[0]: {""}, LOG[4]: {"E5", "E5 none"}, LOG[6]: {"E8", "E8 won", "enqueued"}}
        rows["8 1 empty"] = {"", "empty"}
        for text, wanted in rows.items():
            [record] = records_of(text)
            self.assertEqual({sign.strip() for sign in signs(record)}, wanted)

    def test_each_bug_is_shown_by_two_records(self) -> None:
        rows = {
            "unsafe-ignored": ("1 1 E6 index p 0; read; 0 4", "2 1 E8 won"),
            "one-look": ("1 1 Q13 none", "2 1 Q14 won"),
            "no-repair": ("1 1 Q8 open 3", "2 1 Q14 won"), "lost-race-fails": ("1 1 E14 won", "2 1 failed"),
        }
        for bug, (first, then, _) in BUGS.items():
            before, record = records_of(*rows[bug])
            self.assertIn(first, signs(before))
            self.assertFalse(then.isdisjoint(signs(record)))

    def test_what_is_meant_is_found_in_the_log(self) -> None:
        texts = ["1 1 E12 made p", "2 1 E13 lost", "3 1 E1 q", "4 1 E13 won", "5 1 E5 1 0 none", "6 1 E5 none"]
        rows = [*steps_with(records_of(*texts))]
        found = {option: [row[0] for row in rows if does(row)] for option, does in allowed_logs.DOES.items()}
        self.assertEqual(found, {"--keep": [4], "--cell": [5]})


class Clocks(unittest.TestCase):
    """Whether the stamps of a machine's cores are those of one clock."""

    def test_a_processor_says_so(self) -> None:
        with tempfile.TemporaryDirectory() as folder:
            file = Path(folder) / "cpuinfo"
            with mock.patch.object(ports, "PROCESSOR", file):
                self.assertFalse(ports.has_clock())
                for flags, wanted in (("rdtscp constant_tsc nonstop_tsc", True), ("rdtscp constant_tsc", False)):
                    file.write_text(f"flags : fpu {flags} lm\n", encoding="ascii")
                    self.assertEqual(ports.has_clock(), wanted)
