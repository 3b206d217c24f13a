"""What `tools/check.py hostile` takes for lines and for traces."""

import json
import unittest

from lcrq_tools.checks import hostile


class Lines(unittest.TestCase):
    """The grammar of lines."""

    def test_a_spelled_line_has_no_fault(self) -> None:
        for line in (*hostile.SPELLED, "mark " + "a" * 16, "step 18446744073709551615"):
            self.assertIsNone(hostile.fault_of(line.encode()), line)

    def test_a_line_that_is_nearly_one_has_its_fault(self) -> None:
        rows = {b"refused 17 BadName": ["mark A", "same a " + "a" * 17], b"refused 23 LineTooLong": ["x" * 257]}
        rows[b"refused 22 BadLine"] = ["", "len ", "go 01", "go 256", "step 18446744073709551616", "show tail 0,0"]
        for wanted, lines in rows.items():
            for line in lines:
                self.assertEqual(hostile.fault_of(line.encode()), wanted, line)

    def test_a_mutation_is_one_byte_away(self) -> None:
        lines = {*hostile.mutations(b"go 1")}
        self.assertLessEqual({b"", b"go ", b"o 1", b"go 2", b"go\xff 1", b"go 1\n"}, lines)
        self.assertEqual({len(line) for line in lines}, {0, 1, 2, 3, 4, 5})


class Traces(unittest.TestCase):
    """The grammar of traces, and values that are nearly one."""

    def test_a_whole_session_is_a_trace(self) -> None:
        whole = json.loads(hostile.SECOND)
        self.assertTrue(hostile.is_trace(whole))
        self.assertTrue(hostile.is_trace(whole | {"start": {"fresh": 16}}))

    def test_a_wrong_part_is_none(self) -> None:
        whole = json.loads(hostile.SECOND)
        rows = [{"ring": 4}, {"ring": True}, {"version": 1}, {"version": 2.0}, {"start": {"fresh": 17}}]
        rows += [{"start": {"fresh": True}}, {"events": [["go", 256]]}, {"undone": None}, {"more": 0}]
        rows += [{"marks": whole["marks"][:1] * 2}, {"marks": [{"events": [], "name": "A"}]}]
        for wrong in rows:
            self.assertFalse(hostile.is_trace(whole | wrong), wrong)

    def test_a_value_is_nearly_another_in_one_place(self) -> None:
        values = [*hostile.nearly({"a": [1]})]
        self.assertLessEqual(5 + 2 * len(hostile.OTHERS), len(values))
        for value in ({"a": [1], "more": 0}, {}, {"A": [1]}, {"a": []}, {"a": [1, 1]}, {"a": [None]}, {"a": None}):
            self.assertIn(value, values)

    def test_what_no_schema_says_is_known(self) -> None:
        rows = [[1.0], {"a": [{"name": "b"}, {"name": "b"}]}, [[5, "top"], [5, 7]], [[5, 1], [0, 1]]]
        for value in rows:
            self.assertTrue(hostile.is_beyond_schemas(value), value)
        self.assertFalse(hostile.is_beyond_schemas(json.loads(hostile.SECOND)))
