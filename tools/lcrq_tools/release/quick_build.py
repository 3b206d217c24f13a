"""Builds the program without any proof, in one to three minutes, and keeps it.

    python3 tools/quick_build.py [-o FILE]
    python3 tools/quick_build.py --proved

FILE is crates/lcrqdb/out/lcrqdb if left out, where the other scripts look for the program, and where
`--proved` and `rt run` put the proved one. A program that is there and was not built so stays.

`rt try` builds a program in a folder of its own, runs it and removes it. So it is given a named
pipe as the script: the program waits there while its file is copied, and then gets an empty script.
With `--proved` all crates of the program are proved first (`proving.py`). Else what is built is not
proved. It has the checks of memory that `rt try` puts in (AddressSanitizer), and so is larger and
slower than the proved program. The status is 1, with the reason in one line, if nothing is built.
"""

import os
import shutil
import subprocess
import tempfile
import time
from pathlib import Path

from lcrq_tools.faults import Fault, Parser, say
from lcrq_tools.places import BUILT, CRATES
from lcrq_tools.program import ELF, is_unproved
from lcrq_tools.release import proving

LOOK_EVERY = 0.2  # seconds between two looks at the pipe


class NotBuilt(Fault):
    """Why nothing is built."""


def opened(pipe: Path, build: subprocess.Popen[bytes]) -> int:
    """The pipe, open for writing, once a program reads it."""
    while build.poll() is None:
        try:
            return os.open(pipe, os.O_WRONLY | os.O_NONBLOCK)
        except OSError:  # nobody reads it yet
            time.sleep(LOOK_EVERY)
    assert build.stderr  # a pipe
    errors = build.stderr.read().decode(errors="replace").strip()
    raise NotBuilt(f"`rt try` ended before the program ran: {errors.splitlines()[-1] if errors else build.returncode}")


def program_in(folder: Path) -> Path:
    """The one program that lies below a folder."""
    files = [path for path in folder.rglob("*") if path.is_file() and os.access(path, os.X_OK)]
    found = [path for path in files if path.read_bytes().startswith(ELF)]
    if len(found) != 1:
        raise NotBuilt(f"{len(found)} programs are where `rt try` builds, so this kit builds in another way")
    return found[0]


def build_into(out: Path) -> None:
    """Has the program built, and copies it while it runs."""
    with tempfile.TemporaryDirectory(prefix="lcrqdb-") as name:
        pipe = Path(name) / "script"
        os.mkfifo(pipe)
        # a session of its own, so that Control-C reaches it once, by `terminate`, and it clears up
        with subprocess.Popen(
            ["rt", "try", "--", "run", str(pipe)], cwd=CRATES / "lcrqdb", env=os.environ | {"TMPDIR": name},
            stdin=subprocess.DEVNULL, stdout=subprocess.DEVNULL, stderr=subprocess.PIPE, start_new_session=True,
        ) as build:
            try:
                end = opened(pipe, build)
                out.parent.mkdir(parents=True, exist_ok=True)
                shutil.copyfile(program_in(Path(name)), out)
                out.chmod(0o755)
                os.close(end)  # an empty script, so the program ends, and then `rt try`
                build.communicate()
            finally:
                build.terminate()  # nothing, if it has ended


def build_unproved(out: Path) -> None:
    """Builds the program where that takes the place of no other one."""
    try:
        if out.exists() and not is_unproved(out.read_bytes()):
            raise NotBuilt("a file that was not built so is there; -o names another place")
        say("building without any proof, which takes one to three minutes")
        build_into(out)
    except (NotBuilt, KeyboardInterrupt) as fault:
        raise Fault(f"{out}: {str(fault) or 'stopped'}") from fault


def main() -> int:
    """Builds the program as the command line asks for it; returns the exit status."""
    parser = Parser(__doc__, "-o lcrqdb")
    way = parser.add_mutually_exclusive_group()
    way.add_argument("-o", dest="out", type=Path, default=BUILT, metavar="FILE", help=f"where it goes ({BUILT})")
    way.add_argument("--proved", action="store_true", help="prove it first, and put it where `rt run` does")
    given = parser.parse_args()
    begin = time.monotonic()
    if given.proved:
        out, how = proving.build(), "proved"
    else:
        build_unproved(given.out)
        out, how = given.out, "not proved"
    print(f"{out}: {how}, built in {time.monotonic() - begin:.0f} s")
    return 0
