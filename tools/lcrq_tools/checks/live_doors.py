"""Tries whom a live page lets in and who holds up others, for `checks/live_page.py`.

What a page of another site could send is refused, and whoever can only look asks nothing. Names and lines with markup
come back as data. Requests that are too long, never end or are too many are answered or closed, while others work on.
"""

import json
import re
import socket
import threading
from collections.abc import Iterator
from html.parser import HTMLParser
from pathlib import Path

from lcrq_tools.checks.live_clients import Served, Tab, at_once
from lcrq_tools.checks.live_moments import WORLD
from lcrq_tools.live.server import CONTENT, POLICY
from lcrq_tools.live.waiting import MOST_BODY, MOST_HEAD

MARKUP = "<img src=x onerror=alert(1)>"
CONNECTIONS = 500

# ---- Who is let in ---------------------------------------------------------------------------------


def refusals(tab: Tab) -> Iterator[tuple[str, int, str, str, bytes | None, dict[str, str]]]:
    """Requests that are refused: what is wrong, the status, and the request."""
    own = {"Origin": f"http://{tab.host}", "Content-Type": CONTENT}
    ask, body = f"{tab.base}ask", json.dumps({"tab": tab.name, "viewer": tab.viewer, "line": "go 1"}).encode()
    port = tab.host.partition(":")[2]
    for host in ("evil.example", f"evil.example:{port}", "127.0.0.1", f"127.0.0.1.evil.example:{port}", ""):
        yield f"Host {host}", 403, "GET", tab.base, None, {"Host": host}
    for origin in ("http://evil.example", "null", f"https://{tab.host}", f"http://127.0.0.1:{int(port) - 1}"):
        yield f"Origin {origin}", 403, "POST", ask, body, own | {"Origin": origin}
    yield "no Origin", 403, "POST", ask, body, {"Content-Type": CONTENT}
    yield "another's Origin for the page", 403, "GET", tab.base, None, {"Origin": "http://evil.example"}
    for token in (tab.base[1:-2], f"{tab.base[1:-1]}A", "", "x" * 22):
        yield f"token {token}", 404, "POST", f"/{token}/ask", body, own
    for method in ("GET", "PUT", "DELETE", "OPTIONS", "PATCH", "HEAD", "TRACE"):
        yield method, 405, method, ask, body if method != "GET" else None, own
    yield "POST", 405, "POST", f"{tab.base}run", b"{}", own
    kinds = ("application/json", "text/plain", "application/x-www-form-urlencoded", "multipart/form-data")
    for kind in (*kinds, f"{CONTENT}; a=b"):
        yield kind, 415, "POST", ask, body, own | {"Content-Type": kind}
    yield "no content type", 415, "POST", ask, body, {"Origin": own["Origin"]}
    for wrong in (b"", b"{", b"[]", b"[" * MOST_BODY, b"\xff\xfe", b'"go 1"', b'{"tab":7}', b'{"tab":"x"}'):
        yield f"body {wrong[:9]!r}", 400, "POST", ask, wrong, own
    fields: list[dict[str, object]] = [{"viewer": "1"}, {"viewer": 1.5}, {"viewer": True}, {"line": None}]
    for other in (*fields, {"tab": "x" * 99}):
        yield f"fields {other}", 400, "POST", ask, json.dumps(json.loads(body) | other).encode(), own
    for name, value in (("ring", 3), ("actors", 17)):
        opened = json.dumps({"text": "go 1\n", name: value}).encode()
        yield f"{value} for {name}", 400, "POST", f"{tab.base}open", opened, own
    yield "a long body", 413, "POST", ask, b" " * (MOST_BODY + 1), own
    yield "a very long body", 413, "POST", ask, b" " * (1 << 20), own
    yield "another's tab", 400, "POST", ask, body.replace(tab.name.encode(), b"tab-of-others"), own
    names = ("../../etc/passwd", "../x", "no", "run/")
    for path in ("/", "//", "/run", f"{tab.base[:-1]}x/", "http://a/", *(f"{tab.base}{name}" for name in names)):
        yield f"path {path}", 404, "GET", path, None, {"Host": tab.host}
    yield "no number", 400, "GET", f"{tab.base}lines?from=x", None, {}


def let_in_fault(built: str, folder: Path) -> str:
    """Which request is let in that shouldn't be, or nothing."""
    with Served(built, folder, *WORLD, "--look") as served:
        tab, looker = served.tab().join(), served.tab(address=1)
        for what, status, method, path, body, sent in refusals(tab):
            found, headers, data = tab.asked(method, path, body, sent)
            if found != status or "Access-Control-Allow-Origin" in headers:
                return f"{what} has status {found}, wanted {status}"
            if str(folder).encode() in data or b"Traceback" in data:
                return f"{what} is answered {data!r}"
        for name in ("ask", "note", "open", "end", "complete"):
            if looker.post(name, tab=tab.name, viewer=tab.viewer, line="go 1")[0] != 403:
                return f"who can only look can {name}"
        if looker.join().viewer or looker.run()["can_ask"] or tab.lines():
            return f"who can only look is viewer {looker.viewer}; the lines are {tab.lines()}"
        return "" if tab.ask("enq 1 7") == {"call": 1, "reply": "ok 1"} else "a line isn't asked any more"


def policy_fault(built: str, folder: Path) -> str:
    """What is wrong with the headers of the page, or nothing."""
    with Served(built, folder) as served:
        tab = served.tab()
        words = []
        for _ in range(2):
            _, headers, data = tab.asked("GET", tab.base)
            found = re.search("'nonce-([^']{22,})'", headers["Content-Security-Policy"])
            if not found or headers["Content-Security-Policy"] != POLICY.format(nonce=found[1]):
                return f"the policy is {headers['Content-Security-Policy']}"
            scripts = re.findall("<script([^>]*)>", data.decode())
            if any(found[1] not in each and "application/json" not in each for each in scripts) or not scripts:
                return f"the scripts are {scripts}"
            words.append(found[1])
        wanted = {"X-Content-Type-Options": "nosniff", "Referrer-Policy": "no-referrer", "Cache-Control": "no-store"}
        if words[0] == words[1] or {name: headers.get(name) for name in wanted} != wanted:
            return f"two pages have the words {words}, and the headers are {headers}"
        tokens = [re.fullmatch("/([A-Za-z0-9_-]{22})/", tab.base) for tab in (tab, served.tab())]
        return "" if all(tokens) else f"the address is {tab.base}"


def address_fault(built: str, folder: Path) -> str:
    """Where the server listens beside 127.0.0.1, or nothing."""
    with Served(built, folder) as served:
        wanted = f"{int.from_bytes(socket.inet_aton('127.0.0.1'), 'little'):08X}:{served.port:04X}"
        rows = [row.split() for kind in ("tcp", "tcp6") if (table := Path("/proc/net", kind)).exists()
                for row in table.read_text(encoding="ascii").splitlines()[1:]]
        found = [row[1] for row in rows if row[3] == "0A" and row[1].endswith(f":{served.port:04X}")]
        return "" if found == [wanted] else f"it listens at {found}, wanted {wanted}"


class Words(HTMLParser):
    """The elements of a page with their attributes."""

    def __init__(self, text: str) -> None:
        super().__init__()
        self.found: list[str] = []
        self.feed(text)

    def handle_starttag(self, tag: str, attrs: list[tuple[str, str | None]]) -> None:
        """Takes an element."""
        self.found += [tag, *(name for name, _ in attrs)]


def markup_fault(built: str, folder: Path) -> str:
    """Where a name, a title or a line with markup comes back as markup, or nothing."""
    with Served(built, folder, *WORLD) as served:
        tab = served.tab().join(MARKUP)
        if tab.run()["people"]["1"]["name"] != MARKUP:
            return f"the people are {tab.run()['people']}"
        if tab.ask(MARKUP)["call"] is not None or tab.post("open", name=MARKUP, text="enq 1 7\n")[0] != 200:
            return "a line with markup is a call, or a run with such a name isn't opened"
        for name in ("", "page"):
            found = Words(tab.got(name).decode()).found
            if "img" in found or "onerror" in found:
                return f"{name or 'the page'} has the markup of a name"
        kinds = {name: tab.asked("GET", tab.base + name)[1] for name in ("run", "lines", "history", "draft", "script")}
        wrong = [name for name, headers in kinds.items() if "html" in headers["Content-Type"]]
        return f"{wrong} are handed out as HTML" if wrong else ""


# ---- Who holds up others ---------------------------------------------------------------------------


def answer_to(port: int, data: bytes) -> bytes:
    """What comes back for these bytes."""
    with socket.create_connection(("127.0.0.1", port), 60) as connection:
        pieces = []
        try:
            connection.sendall(data)
            while piece := connection.recv(1 << 16):
                pieces.append(piece)
        except ConnectionError:
            pass  # it was closed while it was written to
        return b"".join(pieces)


def lines_fault(built: str, folder: Path) -> str:
    """What is wrong with the answers to long lines and to heads that never end, or nothing."""
    with Served(built, folder, *WORLD) as served:
        tab = served.tab().join()
        for line in ("x" * 257, "go 1" + " " * 253, "x" * 60_000, "\u20ac" * 100):
            answer = tab.ask(line)
            wanted = {"call": None, "reply": "refused 23 LineTooLong", "expected": "a line has at most 256 letters"}
            if answer != wanted:
                return f"a line of {len(line)} letters is answered {answer}"
        for line in ("go 1\ngo 1", "go 1\r", "go\t1", "", "\0", "go 1\u2028"):
            if tab.ask(line)["reply"] != "refused 22 BadLine":
                return f"{line!r} is answered {tab.ask(line)}"
        if b" 431 " not in answer_to(served.port, b"GET / HTTP/1.1\r\n" + b"A: b\r\n" * MOST_HEAD):
            return "a head without an end isn't refused"
        if b" 408 " not in answer_to(served.port, b"GET / HTTP/1.1\r\nHost:"):
            return "a head that doesn't come isn't given up"
        return "" if not tab.lines() and tab.ask("enq 1 7")["call"] == 1 else f"the lines are {tab.lines()}"


def connections_fault(built: str, folder: Path) -> str:
    """Whether connections at once hold up who asks, or nothing."""
    with Served(built, folder, *WORLD) as served:
        tab = served.tab().join()
        idle = [socket.create_connection(("127.0.0.1", served.port), 60) for _ in range(CONNECTIONS)]
        try:
            for place, connection in enumerate(idle):
                connection.sendall(f"GET {tab.base} HTTP/1.1\r\n".encode()[: place % 30 + 1])
            for number in range(1, 21):
                if tab.ask("len")["call"] != number:
                    return "a line isn't answered beside them"
            for connection in idle:
                connection.settimeout(60)
                try:
                    if connection.recv(1 << 16)[:9] not in (b"", b"HTTP/1.1 "):
                        return "a connection gets something else than an answer"
                except ConnectionError:
                    pass  # it is closed
        finally:
            for connection in idle:
                connection.close()
        whole = [threading.Thread(target=tab.asked, args=["GET", f"{tab.base}lines"]) for _ in range(100)]
        at_once(whole)
        return "" if tab.ask("len")["call"] == 21 else "a line isn't answered behind them"
