"""What the program takes and says: each row of the manual's tables, both ways, and replies at random."""

import random
import re
import unittest

from lcrq_tools import manual, records
from lcrq_tools.records import Actor, Cell, Counts, Event, Made, Place, Refusal, Step, Tail, read_reply

RANDOM = 20_000
MOST = 2**64 - 1
ACTOR = "crq 0.0 new 1.0 next 0.0 t 5 h 4 closed 1 val none safe 0 idx 9 pass 2"

# A reply for each form of the table of replies, and what is read of it.
REPLIES = {
    "ok K": ("ok 3", Made(3)),
    "ok K enqueued": ("ok 7 enqueued", Made(7, "enqueued")),
    "ok K value V": (f"ok 13 value {MOST}", Made(13, f"value {MOST}")),
    "ok K empty": ("ok 4 empty", Made(4, "empty")),
    "at LIVE UNDONE": ("at 13 2", Counts(13, 2)),
    "marked LEN": ("marked 4", records.Said("marked", "4")),
    "dropped": ("dropped", records.Said("dropped")),
    "marks N": ("marks 2", records.Said("marks", "2")),
    "mark NAME LEN": ("mark both 4", records.Said("mark", "both 4")),
    "same yes": ("same yes", records.Said("same", "yes")),
    "same no": ("same no", records.Said("same", "no")),
    "is CONTENT": ("is open 1", records.Said("is", "open 1")),
    "actor PC OP crq M.S new M.S next M.S t N h N closed B val V safe B idx N pass N":
        (f"actor E4 enq 7 {ACTOR}", Actor("E4", "enq 7", dict(zip(ACTOR.split(" ")[::2], ACTOR.split(" ")[1::2])))),
    "step K; EVENT; PLACE; ACCESS; ANSWER; REPLY":
        ("step 13; go 2; cell 0.0 1; wrote; won; value 7",
         Step(13, Event("go", 2), Place("cell", "0.0", 1), "wrote", "won", "value 7")),
    "origin call C put P take K": ("origin call - put 7 take 13", records.Said("origin", "call - put 7 take 13")),
    "writer K": ("writer 13", records.Said("writer", "13")),
    "writer none": ("writer none", records.Said("writer", "none")),
    "refused NUMBER NAME": ("refused 13 Depended 3", Refusal(13, "Depended", ("3",))),
}
# A place for each form of the table of places, and what is read of it.
PLACES = {
    "qhead": ("qhead", Place("qhead")), "qtail": ("qtail", Place("qtail")),
    "head M.S": ("head 2.1", Place("head", "2.1")), "tail M.S": ("tail 0.0", Place("tail", "0.0")),
    "next M.S": ("next 16.3", Place("next", "16.3")), "whole M.S": ("whole 1.0", Place("whole", "1.0")),
    "cell M.S I": ("cell 0.0 0", Place("cell", "0.0", 0)), "value M.S I": ("value 1.2 3", Place("value", "1.2", 3)),
    "index M.S I": ("index 0.0 7", Place("index", "0.0", 7)), "acell I": ("acell 63", Place("acell", "", 63)),
    "ahead": ("ahead", Place("ahead")), "atail": ("atail", Place("atail")),
}
EVENTS = {
    "enq A X": Event("enq", 1, 7), "deq A": Event("deq", 2), "aenq A X": Event("aenq", 16, MOST),
    "adeq A": Event("adeq", 3), "go A": Event("go", 1), "starve A yes": Event("starve", 1, None, "yes"),
    "starve A no": Event("starve", 4, None, "no"),
}


def without_numbers(text: str) -> str:
    """A text without its numbers and the manual's words in capitals, to compare an example with its form."""
    return re.sub(r"\S*[A-Z0-9]\S*", "", text)


def random_place(chance: random.Random) -> str:
    """Any place."""
    kind = chance.choice([*records.PLACES])
    segment = [f"{chance.randint(0, 16)}.{chance.randint(0, 65535)}"] if kind != "acell" else []
    words = [*segment, str(chance.randint(0, 63))][: records.PLACES[kind]]
    return " ".join([kind, *words])


def random_event(chance: random.Random) -> str:
    """Any line that makes a step."""
    word, _, *more = chance.choice([*EVENTS]).split(" ")
    value = chance.choice([0, 7, MOST])
    return " ".join([word, str(chance.randint(1, 16)), *(str(value) if last == "X" else last for last in more)])


def random_reply(chance: random.Random) -> str:
    """Any reply: each form of the manual's table of replies is about as frequent."""
    number, value = chance.randint(0, 65535), chance.choice(["none", "0", str(MOST)])
    ended = chance.choice(["enqueued", "empty", f"value {chance.randint(0, MOST)}"])
    answers = ["-", "won", "lost", "0.0", "none", "open 3", "was closed", "made 1.0", f"1 4 {value}", "top"]
    answer = chance.choice(answers)
    access = chance.choice(["wrote", "read", "wrote index", "none"])
    place = chance.choice(["-", random_place(chance)])
    call = chance.choice(["none", "deq", "adeq", f"enq {number}"])
    return chance.choice([
        f"ok {number}", f"ok {number} {ended}", f"at {number} {number}", f"refused 13 Depended {number}",
        f"refused 28 TraceStep {number} cause 5 NoChoice", "refused 1 NoActor", "dropped", f"mark a-1 {number}",
        f"actor E{number % 15} {call} {ACTOR}", f"actor Idle none {ACTOR}", f"is {answer}", f"writer {value}",
        f"origin call - put {number} take {number}", "same no", f"marked {number}", f"marks {number}",
        *[f"step {number}; {random_event(chance)}; {place}; {access}; {answer}; {chance.choice(['-', ended])}"] * 4,
    ])


class Tables(unittest.TestCase):
    """The tables of the manual."""

    def test_each_reply_is_read_and_spelled(self) -> None:
        forms = [form for form in manual.quoted_in(manual.PAGE, "| After | Reply |", 1) if form != "-"]
        self.assertEqual(set(forms), set(REPLIES))
        for form, (text, reply) in REPLIES.items():
            with self.subTest(form):
                self.assertEqual(text.split(" ")[0].rstrip(";"), form.split(" ")[0])
                self.assertEqual((read_reply(text), str(reply)), (reply, text))

    def test_each_place_is_read_and_spelled(self) -> None:
        self.assertEqual(set(manual.PLACES), set(PLACES))
        self.assertEqual({form.split(" ")[0] for form in PLACES}, set(records.PLACES))
        for form, (text, place) in PLACES.items():
            with self.subTest(form):
                self.assertEqual(without_numbers(text), without_numbers(form))
                self.assertEqual((Place.read(text), str(place)), (place, text))

    def test_each_event_is_read_and_spelled(self) -> None:
        forms = [form for form in manual.FORMS if re.match("(a?enq|a?deq|go|starve) ", form)]
        self.assertEqual(set(forms), set(EVENTS))
        for form, event in EVENTS.items():
            with self.subTest(form):
                self.assertEqual(without_numbers(str(event)), without_numbers(form))
                self.assertEqual(Event.read(str(event)), event)

    def test_the_words_of_an_actor_are_those_of_the_table(self) -> None:
        form = next(form for form in REPLIES if form.startswith("actor "))
        self.assertEqual(tuple(re.findall(r"\b[a-z]+\b", form)[1:]), records.WORDS)


class Texts(unittest.TestCase):
    """Texts that are read and spelled again."""

    def test_random_replies_are_spelled_byte_for_byte(self) -> None:
        chance = random.Random(1)
        for _ in range(RANDOM):
            text = random_reply(chance)
            self.assertEqual(str(read_reply(text)), text)

    def test_contents_have_their_parts(self) -> None:
        for text, cell in (("1 4 none", Cell(True, 4, None)), (f"0 {MOST} 0", Cell(False, MOST, 0))):
            self.assertEqual((Cell.read(text), str(cell)), (cell, text))
        for text, tail in (("open 0", Tail(False, 0)), (f"closed {MOST}", Tail(True, MOST))):
            self.assertEqual((Tail.read(text), str(tail)), (tail, text))

    def test_what_names_no_place_is_none(self) -> None:
        for text in ("", "nowhere", "qhead 0.0", "tail", "cell 0.0", "acell 1 2", "acell x", "cell 0.0 x"):
            with self.subTest(text), self.assertRaises(ValueError):
                Place.read(text)


class Steps(unittest.TestCase):
    """What a step did."""

    def test_a_call_has_no_place(self) -> None:
        step = Step.read("step 1; enq 3 9; -; none; -; -")
        self.assertEqual((bool(step.place), step.answer, step.reply, step.wrote()), (False, "", "", ()))
        self.assertEqual((step, step.event.called()), (Step(1, Event("enq", 3, 9)), "enq 9"))

    def test_a_step_is_the_same_under_another_number(self) -> None:
        one, other = Step.read("step 2; go 3; qtail; read; 0.0; -"), Step.read("step 5; go 3; qtail; read; 0.0; -")
        self.assertEqual(one, other)
        self.assertNotEqual(str(one), str(other))

    def test_a_write_of_a_cell_is_of_its_halves(self) -> None:
        whole, half = (Step.read(f"step 1; go 1; cell 0.0 1; {did}; won; -") for did in ("wrote", "wrote index"))
        self.assertEqual([*map(str, whole.wrote())], ["value 0.0 1", "index 0.0 1"])
        self.assertEqual([*map(str, half.wrote())], ["index 0.0 1"])

    def test_an_actor_stands_where_its_reply_says(self) -> None:
        self.assertEqual(records.stand_of(f"actor E4 enq 7 {ACTOR}"), "E4 enq 7")
        others = (f"actor Idle none {ACTOR}", "is 0.0", "refused 1 NoActor")
        self.assertEqual([records.stand_of(reply) for reply in others], ["", "0.0", ""])

    def test_a_segment_overlaps_what_is_of_it(self) -> None:
        whole, *others = map(Place.read, ("whole 1.0", "cell 1.0 3", "tail 1.0", "tail 0.0", "qhead", "-"))
        self.assertEqual([whole.overlaps(other) for other in others], [True, True, False, False, False])
        self.assertEqual([place.segment for place in (whole, *others)], ["1.0", "1.0", "1.0", "0.0", "", ""])
