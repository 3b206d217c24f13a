"""Clients of viewers, with other programs in the place of the viewers."""

import contextlib
import os
import tempfile
import unittest
from collections.abc import Iterator
from pathlib import Path
from unittest import mock

from lcrq_tools import clients
from lcrq_tools.clients import Client, Live, ask_until_full, finish, piped, replies_of, serve_once, talk
from lcrq_tools.program import Broken, Ended
from lcrq_tools.tests.stubs import NO_PROGRAM

# A viewer at named pipes, whose replies are the lines; and one that also ends badly.
VIEWER = 'while read -r line; do echo "$line"; done < "$0" >> "$0.replies"'
ENDS_BADLY = f"{VIEWER}; echo history 1; echo bad >&2; exit 1"


@contextlib.contextmanager
def at_pipes(*lines: str) -> Iterator[tuple[Client, int, int]]:
    """A client that asks these lines, and a viewer's ends of its pipes: for its lines, for its replies."""
    given, writing = os.pipe()
    reading, taken = os.pipe()
    client = Client("viewer 1", lines, writing, reading)
    os.set_blocking(given, False)
    try:
        yield client, given, taken
    finally:
        client.leave()
        for end in (given, taken):
            with contextlib.suppress(OSError):
                os.close(end)


@contextlib.contextmanager
def named() -> Iterator[Path]:
    """A named pipe for lines, beside one for the replies."""
    with tempfile.TemporaryDirectory() as folder:
        file = Path(folder) / "a"
        os.mkfifo(file)
        os.mkfifo(replies_of(file))
        yield file


class Lines(unittest.TestCase):
    """What a client writes and reads."""

    def test_each_reply_is_awaited(self) -> None:
        with at_pipes("a", "b", "c") as (client, given, taken):
            client.aim(2)
            self.assertEqual(os.read(given, 99), b"a\n")
            for piece in (b"1", b" x"):
                os.write(taken, piece)
                client.pull()
                with self.assertRaises(BlockingIOError):
                    os.read(given, 99)
            os.write(taken, b"\n")
            client.pull()
            self.assertEqual((os.read(given, 99), client.is_answered()), (b"b\n", False))
            os.write(taken, b"2 y\n")
            client.pull()
            self.assertEqual((client.replies, client.asked, client.is_answered()), (["1 x", "2 y"], 2, True))
            it = client.dialogue()
            self.assertEqual((it.lines, it.replies, it.is_cut), (["a", "b"], ["1 x", "2 y"], False))
            times = [time for pair in zip(it.begun, it.came) for time in pair]
            self.assertEqual((len(times), times), (4, sorted(times)))

    def test_in_a_hurry_all_lines_are_asked_at_once(self) -> None:
        with at_pipes("a", "b", "c") as (client, given, taken):
            client.is_in_a_hurry = True
            client.aim()
            self.assertEqual(os.read(given, 99), b"a\nb\nc\n")
            os.write(taken, b"1\n2\n3\n")
            client.pull()
            self.assertTrue(client.is_answered())

    def test_a_full_pipe_takes_the_rest_later(self) -> None:
        long = "x" * 200_000
        with at_pipes(long) as (client, given, _):
            client.aim()
            client.push()
            got = b""
            while client.unsent:
                got += os.read(given, 1 << 20)
                client.push()
            self.assertEqual(got + os.read(given, 1 << 20), f"{long}\n".encode())

    def test_a_last_line_may_be_broken_off(self) -> None:
        with at_pipes("a", "b", "c") as (client, given, taken):
            client.aim(1)
            os.write(taken, b"1\n")
            client.pull()
            client.break_off("hal")
            self.assertEqual((os.read(given, 99), os.read(given, 99)), (b"a\nhal", b""))
            os.write(taken, b"2\n")
            os.close(taken)
            finish([client])
            self.assertEqual((client.dialogue().lines, client.replies), (["a", "hal"], ["1", "2"]))

    def test_a_reply_that_is_not_whole_is_kept(self) -> None:
        with at_pipes("a") as (client, _, taken):
            client.aim()
            os.write(taken, b"1\n2")
            client.pull()
            self.assertEqual(client.dialogue().replies, ["1", "2"])
            client.leave()
            self.assertEqual((client.dialogue().replies, client.dialogue().is_cut), (["1"], True))


class Faults(unittest.TestCase):
    """What a viewer must not do."""

    def test_it_must_not_end_before_the_last_reply(self) -> None:
        with at_pipes("a", "b") as (client, _, taken):
            client.aim()
            os.close(taken)
            with self.assertRaisesRegex(Broken, "^viewer 1 ended after 0 of 2 replies$"):
                client.pull()
            client.hang_up()
            with self.assertRaisesRegex(Broken, "^viewer 1 ended after 0 of 2 replies$"):
                client.pull()

    def test_it_must_not_end_before_the_client_hangs_up(self) -> None:
        with at_pipes("a") as (client, _, taken):
            client.aim()
            os.write(taken, b"1\n")
            os.close(taken)
            client.pull()
            with self.assertRaisesRegex(Broken, "^viewer 1 ended after 1 of 1 replies$"):
                client.pull()
            client.hang_up()
            client.pull()
            self.assertTrue(client.has_ended)

    def test_it_must_read_on(self) -> None:
        with at_pipes("a", "b") as (client, given, _):
            os.close(given)
            with self.assertRaisesRegex(Broken, "^viewer 1 reads no more after 0 of 2 replies$"):
                client.aim()

    def test_it_must_not_reply_to_nothing(self) -> None:
        with at_pipes("a", "b") as (client, _, taken):
            client.aim()
            os.write(taken, b"1\n1\n")
            with self.assertRaisesRegex(Broken, "^viewer 1 has 2 replies to 1 lines$"):
                client.pull()

    def test_it_must_reply_in_time(self) -> None:
        with at_pipes("a", "b") as (client, _, _taken), mock.patch.object(clients, "SECONDS", 0.01):
            client.aim()
            with self.assertRaisesRegex(Broken, "^nothing came in 0 s: viewer 1 has 0 of 2 replies$"):
                serve_once([client])


class AtOnce(unittest.TestCase):
    """Clients that are served together."""

    def test_all_ask_their_lines(self) -> None:
        lines = [[f"{number} {it}" for it in range(50)] for number in range(8)]
        with contextlib.ExitStack() as stack:
            pairs = [stack.enter_context(piped(["cat"], "a cat", it)) for it in lines]
            talkers = [client for _, client in pairs]
            talk(talkers, 20)
            self.assertEqual([it.replies for it in talkers], [it[:20] for it in lines])
            finish(talkers)
            self.assertEqual([it.replies for it in talkers], lines)
            self.assertEqual([child.wait(clients.SECONDS) for child, _ in pairs], [0] * len(pairs))

    def test_one_that_reads_nothing_stops_nobody(self) -> None:
        lines = [f"{number:09}" for number in range(2000)]
        with piped(["cat"], "a cat", lines) as (_, first), piped(["cat"], "a cat", lines[:9]) as (_, other):
            ask_until_full(first)
            finish([other])
            self.assertEqual((first.replies, other.replies), ([], lines[:9]))
            finish([first])
            self.assertEqual(first.replies, lines)

    def test_a_pipe_that_does_not_fill_is_a_fault(self) -> None:
        with piped(["cat"], "a cat", ["a"]) as (_, client), mock.patch.object(clients, "SECONDS", 0.01):
            with self.assertRaisesRegex(Broken, "^a cat doesn't fill a pipe of [0-9]+ bytes in 0 s$"):
                ask_until_full(client)


class NamedPipes(unittest.TestCase):
    """Clients at the named pipes of a run."""

    def test_a_client_comes_when_its_file_is_opened(self) -> None:
        with named() as file, Live(["sh", "-c", VIEWER, str(file)]) as live:
            client = live.client("viewer 1", file, ["a", "b"])
            finish([client])
            self.assertEqual((client.replies, live.end()), (["a", "b"], Ended(0, b"", "")))

    def test_a_run_says_how_it_ends(self) -> None:
        with named() as file, Live(["sh", "-c", ENDS_BADLY, str(file)]) as live:
            finish([live.client("viewer 1", file, ["a"])])
            self.assertEqual(live.end(), Ended(1, b"history 1\n", "bad\n"))
            self.assertEqual(live.last_words(), "; standard error has bad")

    def test_a_run_that_ended_opens_nothing(self) -> None:
        with named() as file, Live([NO_PROGRAM]) as live:
            with self.assertRaisesRegex(Broken, "^the program ended before it opened a$"):
                live.client("viewer 1", file, ["a"])
            self.assertEqual(live.last_words(), "")

    def test_a_run_must_open_a_file_and_end_in_time(self) -> None:
        with named() as file, Live(["sleep", "60"]) as live, mock.patch.object(clients, "SECONDS", 0.01):
            with self.assertRaisesRegex(Broken, "^viewer 1 doesn't open its file in 0 s$"):
                live.client("viewer 1", file, ["a"])
            with self.assertRaisesRegex(Broken, "^the program doesn't end in 0 s$"):
                live.end()
