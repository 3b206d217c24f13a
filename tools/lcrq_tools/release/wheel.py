"""Makes the wheel of the tools, when pip asks for it by the functions of PEP 517.

    pip install ./tools

What pip usually takes for this, setuptools and wheel, it would have to download first; this takes nothing.
In the wheel are the modules with the files beside them, without the tests, and the pages that tools read,
which lie outside tools/. What it says of them is in tools/pyproject.toml. Only Python's standard library is
used.
"""

import base64
import hashlib
import tomllib
import zipfile
from collections.abc import Mapping
from pathlib import Path
from typing import Any

PACKAGE = Path(__file__).resolve().parent.parent
TOOLS, DOCS = PACKAGE.parent, PACKAGE.parent.parent / "docs"
LEFT_OUT = {"tests", "__pycache__"}  # folders
WHEEL = "Wheel-Version: 1.0\nGenerator: lcrq_tools\nRoot-Is-Purelib: true\nTag: py3-none-any\n"

Files = dict[str, bytes]  # by their paths in the wheel
Settings = Mapping[str, object] | None  # of pip, which nothing here takes


def project() -> Any:
    """What tools/pyproject.toml says of the project."""
    return tomllib.loads((TOOLS / "pyproject.toml").read_text(encoding="utf-8"))["project"]


def metadata() -> str:
    """The same in the form that a wheel has."""
    given = project()
    names = {"Name": "name", "Version": "version", "Summary": "description", "Requires-Python": "requires-python"}
    lines = ["Metadata-Version: 2.1", *(f"{name}: {given[key]}" for name, key in names.items())]
    for extra, needs in given["optional-dependencies"].items():
        lines += [f"Provides-Extra: {extra}", *(f'Requires-Dist: {need}; extra == "{extra}"' for need in needs)]
    return "\n".join([*lines, ""])


def modules() -> Files:
    """The modules with the files beside them, and the pages."""
    paths = {path.relative_to(TOOLS): path for path in PACKAGE.rglob("*") if path.is_file()}
    files = {str(name): path.read_bytes() for name, path in paths.items() if LEFT_OUT.isdisjoint(name.parts)}
    pages = [*DOCS.glob("*.md"), *DOCS.glob("*.json")]
    return files | {f"{PACKAGE.name}/docs/{path.name}": path.read_bytes() for path in pages}


def record_of(files: Files) -> str:
    """A line for each file of a wheel, with its hash and its size."""
    rows = []
    for name, data in files.items():
        digest = base64.urlsafe_b64encode(hashlib.sha256(data).digest()).rstrip(b"=").decode()
        rows.append(f"{name},sha256={digest},{len(data)}\n")
    return "".join(rows)


def write_wheel(folder: str, files: Files) -> str:
    """Writes the wheel with these files into a folder; returns its name."""
    given = project()
    stem = f"{given['name'].replace('-', '_')}-{given['version']}"
    about = f"{stem}.dist-info"
    scripts = "".join(f"{name} = {function}\n" for name, function in given["scripts"].items())
    texts = {"METADATA": metadata(), "WHEEL": WHEEL, "entry_points.txt": f"[console_scripts]\n{scripts}"}
    every = dict(sorted(files.items())) | {f"{about}/{name}": text.encode() for name, text in texts.items()}
    every[f"{about}/RECORD"] = f"{record_of(every)}{about}/RECORD,,\n".encode()
    name = f"{stem}-py3-none-any.whl"
    with zipfile.ZipFile(Path(folder) / name, "w", zipfile.ZIP_DEFLATED) as wheel:
        for path, data in every.items():
            wheel.writestr(path, data)
    return name


def build_wheel(folder: str, _settings: Settings = None, _metadata: str | None = None) -> str:
    """Makes what `pip install` takes."""
    return write_wheel(folder, modules())


def build_editable(folder: str, _settings: Settings = None, _metadata: str | None = None) -> str:
    """Makes what `pip install -e` takes: where the modules are."""
    return write_wheel(folder, {f"{PACKAGE.name}.pth": f"{TOOLS}\n".encode()})
