"""How the unproved program is built and kept, with a shell script in the place of `rt`."""

import contextlib
import os
import subprocess
import tempfile
import unittest
from collections.abc import Iterator
from pathlib import Path
from unittest import mock

from lcrq_tools.program import ELF
from lcrq_tools.release import quick_build
from lcrq_tools.release.quick_build import NotBuilt
from lcrq_tools.tests.stubs import told

UNPROVED = ELF + b" AddressSanitizer"
# It leaves a program where `rt try` does, which waits for its script.
RT = """#!/bin/sh
mkdir "$TMPDIR/built" && printf '\\177ELF AddressSanitizer' > "$TMPDIR/built/lcrqdb" && chmod +x "$TMPDIR/built/lcrqdb"
cat "$4"
"""
FAILS = "#!/bin/sh\necho one >&2; echo two >&2; exit 3\n"


@contextlib.contextmanager
def with_rt(script: str) -> Iterator[Path]:
    """While this holds, `rt` is this script; gives a folder."""
    with tempfile.TemporaryDirectory() as name, mock.patch.object(quick_build, "LOOK_EVERY", 0.005):
        rt = Path(name) / "rt"
        rt.write_text(script, encoding="ascii")
        rt.chmod(0o755)
        with mock.patch.dict(os.environ, {"PATH": f"{name}:{os.environ['PATH']}"}):
            yield Path(name)


class Builds(unittest.TestCase):
    """What is built, and what is left alone."""

    def test_the_program_is_kept_while_it_waits(self) -> None:
        with with_rt(RT) as folder:
            out = folder / "out" / "lcrqdb"
            for _ in range(2):
                status, output, _ = told(quick_build.main, "quick_build.py", "-o", str(out))
                self.assertEqual((status, out.read_bytes(), os.access(out, os.X_OK)), (0, UNPROVED, True))
                self.assertRegex(output, f"^{out}: not proved, built in [0-9]+ s\n$")

    def test_a_build_that_fails_is_a_fault_with_its_last_line(self) -> None:
        with with_rt(FAILS) as folder:
            ended = told(quick_build.main, "quick_build.py", "-o", str(folder / "lcrqdb"))
            said = f"{folder / 'lcrqdb'}: `rt try` ended before the program ran: two\n"
            self.assertEqual((ended[0], ended[2].splitlines(keepends=True)[-1]), (1, f"quick_build.py: {said}"))
            self.assertFalse((folder / "lcrqdb").exists())

    def test_a_program_that_was_not_built_so_stays(self) -> None:
        with with_rt(RT) as folder:
            out = folder / "lcrqdb"
            out.write_bytes(ELF)
            status, _, errors = told(quick_build.main, "quick_build.py", "-o", str(out))
            self.assertEqual((status, out.read_bytes()), (1, ELF))
            self.assertIn("a file that was not built so is there; -o names another place", errors)


class Places(unittest.TestCase):
    """The program below a folder."""

    def test_there_is_one_program(self) -> None:
        with tempfile.TemporaryDirectory() as name:
            folder = Path(name)
            (folder / "a").mkdir()
            files = {"a/lcrqdb": (ELF, 0o755), "a/lcrqdb.o": (ELF, 0o644), "run.sh": (b"#!/bin/sh", 0o755)}
            for path, (data, mode) in files.items():
                (folder / path).write_bytes(data)
                (folder / path).chmod(mode)
            self.assertEqual(quick_build.program_in(folder), folder / "a" / "lcrqdb")
            (folder / "other").write_bytes(ELF)
            (folder / "other").chmod(0o755)
            with self.assertRaisesRegex(NotBuilt, "^2 programs are where `rt try` builds"):
                quick_build.program_in(folder)

    def test_a_pipe_opens_when_somebody_reads_it(self) -> None:
        with tempfile.TemporaryDirectory() as name, mock.patch.object(quick_build, "LOOK_EVERY", 0.005):
            pipe = Path(name) / "script"
            os.mkfifo(pipe)
            with subprocess.Popen(["cat", str(pipe)], stdout=subprocess.PIPE) as child:
                end = quick_build.opened(pipe, child)
                os.write(end, b"len\n")
                os.close(end)
                self.assertEqual(child.communicate(timeout=60)[0], b"len\n")
