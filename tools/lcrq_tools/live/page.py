"""Puts the live page together, for `server.py`: the page that is stored too, without data, and the code that asks.

The page fetches its data. Each answer has a word of its own that lets its style and its script run, and nothing else.
"""

from pathlib import Path

from lcrq_tools.page import page

HERE = Path(__file__).resolve().parent
SCRIPTS = ("live.js", "live_cards.js", "live_rows.js", "live_tools.js")
NO_DATA = ""  # in the place of a stored page's data


def text_in(name: str) -> str:
    """The text of a part beside this module, nothing where it isn't there."""
    path = HERE / name
    return path.read_text(encoding="utf-8") if path.is_file() else ""


def page_of(title: str, nonce: str) -> str:
    """The page."""
    word = f' nonce="{nonce}"'
    return page.page_with(
        {"title": title, "moments": []}, kind="live", nonce=word, data=NO_DATA, toolbar=text_in("live.html"),
        more_style=f"<style{word}>\n{text_in('live.css')}\n</style>",
        more_script=f"<script{word}>\n{''.join(map(text_in, SCRIPTS))}\n</script>",
    )
