"""The pages of the queue as the receiver serves them: a few files of one folder, each by a name that is known, and nothing else."""
import hashlib
import os
import re
import stat
from pathlib import Path
from typing import NamedTuple, Optional, Tuple

from ..core.notes import LAST_CHANGE
from ..places import open_regular, read_up_to
from ..showing.looks import POLICY_IN_HEADER

HTML, JSON, METRICS = "text/html; charset=utf-8", "application/json", "text/plain; version=0.0.4; charset=utf-8"
# What a client may ask for, besides the page of a change: the file and its type.
FILES = {
    "/": ("index.html", HTML), "/index.html": ("index.html", HTML), "/queue.json": ("queue.json", JSON),
    "/metrics": ("metrics.prom", METRICS),
}
CHANGE = re.compile(r"/change-([1-9][0-9]{0,9})\.html")
METHODS = ("GET", "HEAD")
# A page is shorter.
MOST_BYTES = 64 * 2 ** 20


class Served(NamedTuple):
    """An answer."""

    status: str
    headers: Tuple[Tuple[str, str], ...]
    body: bytes


class Page:
    """The pages in the folder of reports."""

    def __init__(self, folder: Path):
        self.folder = folder

    def answer(self, method: str, place: str, known: str) -> Served:
        """The answer to a client that asks for a place, and has what these tags name already."""
        found = file_at(place)
        if found is None:
            return said("404 Not Found", "there is nothing here")
        if method not in METHODS:
            return said("405 Method Not Allowed", "this is only read", (("Allow", ", ".join(METHODS)),))
        name, kind = found
        content = self.content(name)
        if content is None:
            return said("404 Not Found", "the host hasn't written this")
        tag = f'"{hashlib.sha256(content).hexdigest()[:32]}"'
        headers = (("ETag", tag), *COMMON)
        if is_known(tag, known):
            return Served("304 Not Modified", headers, b"")
        length = ("Content-Length", str(len(content)))
        return Served("200 OK", (("Content-Type", kind), length, *headers), b"" if method == "HEAD" else content)

    def content(self, name: str) -> Optional[bytes]:
        """A file of the folder, unless it isn't there. A link is none."""
        try:
            file = open_regular(self.folder / name)
        except OSError:
            return None
        try:
            is_file = stat.S_ISREG(os.fstat(file).st_mode)
            content = read_up_to(file, MOST_BYTES) if is_file else b""
            return content if is_file and len(content) <= MOST_BYTES else None
        finally:
            os.close(file)


COMMON = (
    ("Cache-Control", "no-cache"), ("X-Content-Type-Options", "nosniff"), ("Content-Security-Policy", POLICY_IN_HEADER),
    ("Referrer-Policy", "no-referrer"),
)


def file_at(place: str) -> Optional[Tuple[str, str]]:
    """The file that a client means, with its type. The name is one of the host's own: no part of what the client sent is joined to it but a
    number."""
    change = CHANGE.fullmatch(place)
    if change and int(change[1]) <= LAST_CHANGE:
        return f"change-{int(change[1])}.html", HTML
    return FILES.get(place)


def is_known(tag: str, known: str) -> bool:
    """Whether a tag is among those that a client has."""
    return known.strip() == "*" or tag in [it.strip()[2:] if it.strip().startswith("W/") else it.strip() for it in known.split(",")]


def said(status: str, words: str, more: Tuple[Tuple[str, str], ...] = ()) -> Served:
    body = f"{words}\n".encode()
    length = ("Content-Length", str(len(body)))
    return Served(status, (("Content-Type", "text/plain; charset=utf-8"), length, *COMMON, *more), body)
