"""What a check says of unit tests, whatever ran them."""

import unittest

from lcrq_tools.checks import units
from lcrq_tools.program import Skipped


class Modules(unittest.TestCase):
    """The tests of a module."""

    def test_a_test_is_of_its_module(self) -> None:
        names = {"lcrq_tools.tests.test_boxes.Widths.test_it": "boxes", "lcrq_tools.tests.test_port_log": "port_log"}
        for name, module in names.items():
            self.assertEqual(units.module_of(name), module)

    def test_the_first_fault_is_kept(self) -> None:
        module = units.Module()
        for name, wrong, is_skipped in (("a", "", False), ("b", "why\n", False), ("c", "more", False), ("d", "", True)):
            module.add(name, wrong, is_skipped)
        self.assertEqual((module.count, module.wrong, module.skipped), (4, "b: why", 1))

    def test_a_tool_that_is_not_there_is_skipped(self) -> None:
        name, fault = units.tool_check("nowhere_1", "check", ".")
        self.assertEqual((name, fault, type(fault)), ("nowhere_1 check .", "nowhere_1", Skipped))
