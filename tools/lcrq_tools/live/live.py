"""Serves a run as a page in which people step it, undo steps and see what comes of it, together if they like.

    python3 tools/live.py [SCRIPT] [--trace TRACE] [--actors A] [--ring R] [--viewers N] [--port P] [--keep FILE]
        [--look] [--no-browser] [--program P]

It prints the page's address, opens the browser, and ends with Control-C or the page's 'end'. Each tab that opens the
address is a viewer of `lcrqdb view --live`; with `--look` there is a second address, which can only look. SCRIPT may
be a script, a draft or a history. Each line is kept in a file, which is named at the start: `live.py FILE` goes on
with it, also after a process was killed. The page is there for this computer alone. Only Python's standard library is
used.
"""

import argparse
import signal
import sys
import threading
import webbrowser
from pathlib import Path
from typing import NoReturn

from lcrq_tools.faults import FAULTS, Fault, Parser, say, text_of
from lcrq_tools.live.desk import MOST_PEOPLE
from lcrq_tools.live.kept import Keep, Kept, free_path, is_kept
from lcrq_tools.live.links import is_link
from lcrq_tools.live.opened import opened_file
from lcrq_tools.live.room import Room
from lcrq_tools.live.server import Server
from lcrq_tools.options import add_program, add_script, add_world, settled
from lcrq_tools.page.followed import Followed
from lcrq_tools.places import state_folder
from lcrq_tools.program import counted

VIEWERS = 8  # if nothing is said
PORTS = range(1 << 16)


def parser() -> Parser:
    """The command line."""
    parser = Parser(__doc__, "session.script --viewers 2 --no-browser")
    add_script(parser)
    add_world(parser)
    about = f"how many tabs may ask, each a viewer: 1 to {MOST_PEOPLE} ({VIEWERS})"
    parser.add_argument("--viewers", type=int, choices=range(1, MOST_PEOPLE + 1), metavar="N", help=about)
    parser.add_argument("--port", type=int, choices=PORTS, metavar="P", default=0, help="the port (a free one)")
    parser.add_argument("--keep", type=Path, metavar="FILE", help=f"where the run is kept (a file in {state_folder()})")
    parser.add_argument("--look", action="store_true", help="print a second address, which can only look")
    parser.add_argument("--no-browser", dest="browses", action="store_false", help="don't open the browser")
    add_program(parser)
    return parser


def keep_of(arguments: argparse.Namespace) -> Keep | None:
    """The file of a run that goes on, if the command line names one."""
    name: str = arguments.script or ""
    if arguments.keep or not name or name == "-" or is_link(name):
        return None
    with open(name, "rb") as file:
        begin = file.read(1 << 12).decode("latin-1")
    return Keep(Path(name), None) if is_kept(begin) else None


def room_of(arguments: argparse.Namespace) -> Room:
    """The run that a command line asks for, with room for its viewers."""
    keep = keep_of(arguments)
    kept: Kept = opened_file(arguments)
    path: Path = arguments.keep or free_path(state_folder(), kept.title)
    if keep is None and path.exists():
        raise Fault(f"{path} is there: `live.py {path}` goes on with a run that is kept")
    if keep is None:
        path.parent.mkdir(mode=0o700, parents=True, exist_ok=True)
    return Room(arguments.program, kept, arguments.viewers or kept.people or VIEWERS, Followed, keep or path)


def said_at_start(server: Server) -> str:
    """What is printed at the start."""
    room = server.room
    rows = [f"the page is {server.address(server.token)}"]
    if server.look_token:
        rows.append(f"to look only: {server.address(server.look_token)}")
    rows.append(f"the run is kept in {room.path}")
    if room.run.left_out:
        rows.append(f"{counted(room.run.left_out, 'line')} spelled no command, and the run is without them")
    return "\n".join([*rows, "Control-C ends it."])


ENDING = (signal.SIGINT, signal.SIGTERM, signal.SIGHUP)  # by which it ends


def interrupt(*_: object) -> NoReturn:
    """Ends the server, which isn't interrupted again while it ends."""
    for number in ENDING:
        signal.signal(number, signal.SIG_IGN)
    raise KeyboardInterrupt


def serve(server: Server) -> None:
    """Serves until the page's 'end' or Control-C."""
    for number in ENDING:
        if signal.getsignal(number) != signal.SIG_IGN:  # as `nohup` has it
            signal.signal(number, interrupt)
    try:
        server.serve_forever()
    except KeyboardInterrupt:
        print()


def ended(server: Server) -> int:
    """Ends the run, and says where it is; returns the exit status."""
    room, status = server.room, 0
    why = room.run.why
    try:
        room.end("live.py has ended")
    except FAULTS as fault:
        why = text_of(fault)
    if why:
        say(why)
        status = 1
    server.server_close()
    lines = counted(len(room.run.calls), "line")
    print(f"{lines} kept: live.py {room.path} goes on")
    return status


def main() -> int:
    """Serves the page; returns the exit status."""
    arguments = settled(parser())
    room = room_of(arguments)
    try:
        server = Server(room, arguments.port, arguments.look)
    except OSError as fault:
        room.run.close()
        raise Fault(f"port {arguments.port} can't be taken: {fault.strerror}") from fault
    print(said_at_start(server), flush=True)
    if arguments.browses:
        threading.Thread(target=webbrowser.open, args=[server.address(server.token)], daemon=True).start()
    serve(server)
    sys.stdout.flush()
    return ended(server)
