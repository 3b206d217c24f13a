"""Makes the plain script of a draft, for `lcrqdb run`, and says how it is run.

    python3 tools/draft.py FILE.draft > s.script

What a draft may have is in `drafts.py`. The script goes to standard output or, with `-o`, into a file; the
command that runs it goes to standard error. Only Python's standard library is used.
"""

from lcrq_tools import drafts
from lcrq_tools.faults import Parser, say
from lcrq_tools.options import add_output, write


def main() -> int:
    """Writes the script; returns the exit status."""
    parser = Parser(__doc__, "05-unsafe-cell.draft -o 05.script")
    parser.add_argument("draft", metavar="FILE.draft", help="the draft")
    add_output(parser, "OUT.script", "-")
    arguments = parser.parse_args()
    draft = drafts.read(arguments.draft)
    write(arguments.out, draft.script())
    say(f"run it by `{draft.command('s.script' if arguments.out == '-' else arguments.out)}`")
    return 0
