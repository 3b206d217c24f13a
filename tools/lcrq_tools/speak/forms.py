"""Says what a line should have been that is no command, and what each command does, for `prompt.py`.

The forms of lines and what they mean come from the tables of docs/MANUAL.md. Only Python's standard library is
used.
"""

import difflib
import re

from lcrq_tools import manual

MOST_BYTES = 256
# What a capital stands for in a form of the manual: its greatest number, and one to show.
RANGES = {"A": (2**8 - 1, "1"), "X": (2**64 - 1, "7"), "K": (2**64 - 1, "3"), "N": (2**64 - 1, "2")}
RANGES |= {"M": (2**8 - 1, "0"), "S": (2**32 - 1, "0"), "I": (2**8 - 1, "0")}
WHAT = {"A": "an actor", "X": "a value", "K": "a step's number", "N": "a count", "I": "a number", "M": "a maker",
        "S": "a number", "NAME": "a bookmark's name"}
NAME = "[a-z0-9-]{1,16}"
EXAMPLE_NAME = "a"
CLOSE = 0.6  # how alike two words have to be, so that one may be meant by the other


# The forms of a line, with each kind of place in those that have one.
FORMS = tuple(form.replace("PLACE", place) for form in manual.FORMS
              for place in (manual.PLACES if "PLACE" in form else [""]))
WORDS = tuple(dict.fromkeys(form.split(" ")[0] for form in manual.FORMS))


def parts_of(form: str) -> list[str]:
    """The words of a form, the spaces and the dots between them."""
    return re.split(r"([ .])", form)


def pattern_of(form: str) -> str:
    """What lines of a form look like, whatever their numbers are."""
    number = "(0|[1-9][0-9]*)"
    shown = {"NAME": f"({NAME})", **dict.fromkeys(RANGES, number)}
    return "".join(shown.get(part, re.escape(part)) for part in parts_of(form))


def is_in_range(form: str, words: tuple[str, ...]) -> bool:
    """Whether the words that a form leaves open are none that is too great."""
    names = [part for part in parts_of(form) if part in RANGES or part == "NAME"]
    return all(name == "NAME" or int(word) <= RANGES[name][0] for name, word in zip(names, words))


def is_command(line: str) -> bool:
    """Whether a line is one that the program takes."""
    found = ((form, re.fullmatch(pattern_of(form), line)) for form in FORMS)
    return len(line) <= MOST_BYTES and any(match and is_in_range(form, match.groups()) for form, match in found)


def example_of(form: str) -> str:
    """A line of a form."""
    shown = {"NAME": EXAMPLE_NAME, **{name: example for name, (_, example) in RANGES.items()}}
    return "".join(shown.get(part, part) for part in parts_of(form.replace("PLACE", "cell M.S I")))


def ranges_of(form: str) -> str:
    """What the capitals of a form stand for."""
    names = dict.fromkeys(part for part in parts_of(form) if part in WHAT)
    return ", ".join(
        f"{name} {WHAT[name]}" + (f" up to {RANGES[name][0]}" if name in RANGES else " of a-z, 0-9 and -")
        for name in names
    )


def forms_for(words: list[str]) -> list[str]:
    """The forms that begin with a word, those of its kind of place if the next word names one."""
    of_place = [form for form in FORMS if form.split(" ")[:2] == words[:2]]
    return of_place or [form for form in manual.FORMS if form.split(" ")[0] == words[0]]


def tidied(line: str) -> str:
    """A line as its writer may have meant it: in small letters, without commas and zeros in front, with one
    space between words, and between letters and a number behind them."""
    line = re.sub(r"(?<=[0-9]),(?=[0-9])", ".", line.lower())
    line = re.sub(r"[,;:()\s]+", " ", line).strip()
    line = re.sub(r"^([a-z]+)([0-9])", r"\1 \2", line)
    return re.sub(r"\b0+(?=[0-9])", "", line)


def near_words(word: str) -> list[str]:
    """The first words that may be meant by a word."""
    return [word] if word in WORDS else difflib.get_close_matches(word, WORDS, n=3, cutoff=CLOSE)


def meant(line: str) -> str:
    """A command that a line may have meant, or nothing."""
    word, _, rest = tidied(line).partition(" ")
    lines = [*(f"{other} {rest}".strip() for other in near_words(word)), f"show {word} {rest}".strip()]
    return next(filter(is_command, lines), "")


def expected(line: str) -> str:
    """What should stand in the place of a line that is no command."""
    if len(line) > MOST_BYTES:
        return f"a line has at most {MOST_BYTES} letters"
    if not line.strip():
        return "an empty line is no command"
    if found := meant(line):
        return f"did you mean `{found}`?"
    word, *rest = tidied(line).split(" ")
    if not (near := near_words(word)):
        return f"no command begins with `{word}`: `help` lists them"
    forms = forms_for([near[0], *rest])
    wanted = " or ".join(f"`{form}`" for form in forms)
    return f"expected {wanted}, as `{example_of(forms[-1])}`; {ranges_of(forms[-1])}".rstrip("; ")
