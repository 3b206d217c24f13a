"""Values that are put and taken as the records come."""

import unittest
from unittest import mock

from lcrq_tools.port import port_ledger
from lcrq_tools.port.port_ledger import Ledger


class Values(unittest.TestCase):
    """Values of many calls."""

    def test_what_is_put_and_taken_is_not_held(self) -> None:
        made = Ledger([])
        with mock.patch.object(port_ledger, "HELD", 8):
            for value in range(100):
                made.end(f"enq {value}", "enqueued")
                made.end("deq", f"value {value}")
            self.assertEqual((made.enqueued, made.dequeued, len(made.away.held)), ({}, {}, 4))
            self.assertEqual(made.away.those_of(["7", "99", "100"]), {"7", "99"})

    def test_a_value_may_be_taken_before_its_call_ends(self) -> None:
        made = Ledger([])
        made.end("deq", "value 7")
        made.end("enq 7", "enqueued")
        self.assertEqual([*made.lines()], [])

    def test_each_kind_is_told(self) -> None:
        made = Ledger(["5"])
        for call, reply in (("enq 1", "enqueued"), ("enq 2", "enqueued"), ("deq", "value 2"), ("deq", "value 2"),
                            ("deq", "value 3"), ("deq", "value 5"), ("enq 6", ""), ("deq", "value 6")):
            made.end(call, reply)
        self.assertEqual([*made.lines()], [
            "1 value put and never taken: 1", "1 value taken more often than put: 2", "1 value taken and never put: 3",
        ])
