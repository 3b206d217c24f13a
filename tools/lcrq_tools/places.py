"""Where things are: the pages, the examples and the crates, and the built program.

In the repository, and in the archive that is handed out, they lie beside tools/. A package that pip has
installed takes those around the current folder; where there are none, it has the pages that tools read
beside its modules, where `release/wheel.py` lays them. Only Python's standard library is used.
"""

import os
import shutil
from pathlib import Path

from lcrq_tools.faults import Fault

PACKAGE = Path(__file__).resolve().parent


def top_of(package: Path) -> Path:
    """The folder that has `docs`, and in the repository also `examples` and `crates`, for a package there."""
    if (package.parent / "pyproject.toml").is_file():  # which pip does not install
        return package.parent.parent
    here = Path.cwd()
    around = (folder for folder in (here, *here.parents) if (folder / "tools" / package.name).is_dir())
    return next(around, package)


TOP = top_of(PACKAGE)
CRATES, EXAMPLES = TOP / "crates", TOP / "examples"
# Where the program is: where `rt run` and `rt ci` leave it, and in the archive that is handed out.
BUILDS_TO = (CRATES / "lcrqdb" / "out" / "lcrqdb", TOP / "bin" / "lcrqdb")
BUILT = next((path for path in BUILDS_TO if path.is_file()), BUILDS_TO[0])
BUILDS = "python3 tools/quick_build.py --proved, or without a proof python3 tools/quick_build.py"


def found_program() -> str:
    """The program that a tool takes if none is named: the built one, else lcrqdb on the PATH."""
    return str(BUILT) if BUILT.is_file() else shutil.which("lcrqdb") or str(BUILT)


def required(path: str, command: str = BUILDS) -> str:
    """Where a program is that this path names. Where there is none, the fault has the command that
    builds it."""
    found = shutil.which(path)
    if not found:
        raise Fault(f"no program at {path}: at the top of the repository, this builds it: {command}")
    return found


def state_folder() -> Path:
    """Where runs and typed lines are kept, if nothing else is said."""
    state = os.environ.get("XDG_STATE_HOME") or str(Path.home() / ".local" / "state")
    return Path(state) / "lcrqdb"
