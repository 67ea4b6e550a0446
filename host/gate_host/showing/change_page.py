"""The page of a change: how it stands, how it landed, and all that was said of it."""
from dataclasses import dataclass
from typing import Sequence

from .documents import ChangeDocument
from .logs import Entry
from .markup import code, commit, exactly, is_address, line, link, made_at, moment, page, people, section, terms, text

PHASES = {"open": "is open", "closed": "is closed", "landed": "has landed"}


@dataclass(frozen=True)
class AroundChange:
    """What a page of a change has besides: the names of the repository and of its main branch, the address of the repository at its code
    host, if it has one, and the time."""

    repository: str
    main: str
    code: str
    at: int


def page_of_change(document: ChangeDocument, entries: Sequence[Entry], around: AroundChange) -> str:
    parts = [landing(document, around), report(document), log(entries, around)]
    title = f"Change {document.change}{document.title and ': '}{document.title[:100]} · {around.main} of {around.repository}"
    return page(title, header(document, around), "".join(filter(None, parts)), footer())


def header(document: ChangeDocument, around: AroundChange) -> str:
    number = document.change
    shown = f"{line(document.title)}" if document.title else f"Change {number}"
    stands = f"Change {number} {PHASES.get(document.phase, '')}" if document.head else f"Change {number} was never opened"
    at = f"at {commit(document.head, around.code)}" if document.head else ""
    by = f"by {line(document.author)}" if document.author else ""
    there = link(f"{around.code}/pull/{number}", "pull request") if is_address(around.code) else ""
    facts = [it for it in (f"{stands} {at}".strip(), by, there) if it]
    where = f'<a href="index.html">The queue</a> of {line(around.repository)}, branch {line(around.main)}'
    return f'<p class="where">{where}</p>\n<h1>{shown}</h1>\n{made_at(around.at, facts)}'


def landing(document: ChangeDocument, around: AroundChange) -> str:
    """How it landed, or who has approved it."""
    it = document.landed
    if it:
        at = [("When", exactly(it.at, around.at))] if it.at is not None else []
        head = [("Head", commit(it.head, around.code))] if it.head else []
        by = [("Approved by", people(it.approvers, it.said_by))] if it.approvers else []
        return section("landed", "Landed", terms([("Commit", commit_of(it.commit, around)), ("Batch", str(it.batch)), *by, *head, *at]))
    if document.approvers:
        at = [("Since", moment(document.approved_at, around.at))] if document.approved_at else []
        return section("approved", "Approved", terms([("By", people(document.approvers, document.said_by)), *at]))
    return ""


def commit_of(name: str, around: AroundChange) -> str:
    shown = code(name)
    return link(f"{around.code}/commit/{name}", shown) if is_address(around.code) else shown


def report(document: ChangeDocument) -> str:
    """The lines of the bot, each a word and a value."""
    lines = [it.partition(" ") for it in document.report.split("\n") if it]
    pairs = [(text(word), code(value.strip()) if word == "head" else text(value.strip())) for word, _, value in lines]
    if not pairs:
        return section("report", "As the bot has it", '<p class="none">The bot has no such change.</p>\n')
    return section("report", "As the bot has it", terms(pairs))


def log(entries: Sequence[Entry], around: AroundChange) -> str:
    if not entries:
        return section("log", "Log", '<p class="none">Nothing was said of it.</p>\n')
    said = "".join(f"<li>{exactly(it.at, around.at)} <div>{said_in(it.text)}</div></li>\n" for it in entries)
    return section("log", "Log", f'<ol class="log">\n{said}</ol>\n', f"{len(entries)} entries" if len(entries) > 1 else "")


def said_in(told: str) -> str:
    """What was told. What somebody wrote stands there as a quotation."""
    return "<p>" + "\n".join(
        f'<span class="quote" dir="auto">{text(it[2:])}</span>' if it.startswith("> ") else f"<span>{text(it)}</span>"
        for it in told.split("\n")).replace("\n<span class=\"quote\"", "<span class=\"quote\"") + "</p>"


def footer() -> str:
    return (
        '<p>Times are in <span id="zone">UTC</span>. The host writes this page when something of the change has changed. '
        'Whether a host runs is told on <a href="index.html">the page of the queue</a>.</p>\n'
    )
