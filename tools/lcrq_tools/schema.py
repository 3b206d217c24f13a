"""Checks traces against docs/trace.schema.json, the JSON Schema of versions 1 and 2.

    python3 tools/schema.py FILE..

For each file it prints where the first value is that the schema refuses, and why; `$` is the whole
trace. The status is 1 if there is one, or if a file can't be read. It needs the library
`jsonschema`: python3-jsonschema of Debian, or jsonschema of pip. Without it the status is 1, too.
"""

import functools
import importlib.util
import json
import re
from collections.abc import Iterator
from pathlib import Path

from lcrq_tools.faults import Fault, Parser
from lcrq_tools.program import TOP

HAS_LIBRARY = importlib.util.find_spec("jsonschema") is not None
if HAS_LIBRARY:
    from jsonschema import Draft7Validator, ValidationError, validators

SCHEMA = TOP / "docs" / "trace.schema.json"
MOST_SHOWN = 160  # letters of what is wrong, which may show a whole list


def has_pattern(_validator: object, pattern: str, value: object, _schema: object) -> "Iterator[ValidationError]":
    """The keyword `pattern`, whose `$` is the end of the text, also where a line feed is last: that
    of Python's `re` is before it, too."""
    if isinstance(value, str) and not re.search(pattern.replace("$", r"\Z"), value):
        yield ValidationError(f"{value!r} does not match {pattern!r}")


@functools.cache
def validator() -> "Draft7Validator":
    """What checks values against the schema of traces."""
    if not HAS_LIBRARY:
        raise Fault("this needs jsonschema: python3-jsonschema of Debian, or jsonschema of pip")
    kind = validators.extend(Draft7Validator, {"pattern": has_pattern})
    checker: "Draft7Validator" = kind(json.loads(SCHEMA.read_text(encoding="utf-8")))
    return checker


def shortened(text: str) -> str:
    """A text without its middle, where it is long."""
    half = MOST_SHOWN // 2
    return text if len(text) <= MOST_SHOWN else f"{text[:half]} .. {text[-half:]}"


def fault_of(value: object) -> str:
    """The first thing that the schema of traces finds wrong with a value, or nothing."""
    fault = next(validator().iter_errors(value), None)
    if not fault:
        return ""
    meant = f": {fault.schema['description']}" if fault.validator == "anyOf" else ""
    return f"{fault.json_path}: {shortened(fault.message)}{meant}"


def fault_in(name: str) -> str:
    """What is wrong with the file of this name, or nothing."""
    try:
        return fault_of(json.loads(Path(name).read_text(encoding="utf-8")))
    except OSError as fault:
        return f"can't be read: {fault.strerror}"
    except (ValueError, RecursionError) as fault:
        return f"no JSON: {fault}"


def main() -> int:
    """Checks the files of the command line; returns the exit status."""
    parser = Parser(__doc__, "poised.trace")
    parser.add_argument("files", nargs="+", metavar="FILE", help="a trace")
    faults = [(name, fault_in(name)) for name in parser.parse_args().files]
    for name, fault in faults:
        print(f"{name}: {fault or 'no fault'}")
    return 1 if any(fault for _, fault in faults) else 0
