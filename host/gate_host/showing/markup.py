"""Markup: what people wrote becomes text of a page and nothing else, and a page is whole in itself."""
import html
import time
from typing import Iterable, Optional, Sequence

from ..core.words import DIGITS, plain
from .looks import ICON, POLICY, SCRIPT, STYLE

# So much is shown of a text that stands on a line with others.
MOST_ON_LINE = 300
ADDRESSES = ("https://", "http://")
# The columns of all tables, by how wide they are.
WIDTHS = {
    "Change": "number", "Title": "what", "Author": "who", "Approved by": "by", "Probably lands": "rest", "What became of it": "all",
    "When": "when", "Commit": "sha",
}
# By what the script knows when the page was made.
MADE = 'id="made" data-exact'


def text(words: str) -> str:
    """A text as it stands between elements, or in quotes within one."""
    return html.escape(plain(words))


def line(words: str) -> str:
    """What somebody wrote, on a line with others. Where its writing goes from right to left, the others stay where they are."""
    shown = words if len(words) <= MOST_ON_LINE else f"{words[:MOST_ON_LINE]}…"
    return f"<bdi>{text(shown)}</bdi>"


def code(words: str) -> str:
    return f"<code>{text(words)}</code>"


def commit(name: str, address: str = "") -> str:
    """The first digits of a commit, which leads to its page at the code host, if there is one."""
    shown = f'<code title="{text(name)}">{text(name[:DIGITS])}</code>'
    return link(f"{address}/commit/{name}", shown) if is_address(address) else shown


def is_address(address: str) -> bool:
    """Whether a page may lead there: to what a browser loads, and runs nowhere else."""
    return address.startswith(ADDRESSES)


def link(address: str, shown: str) -> str:
    return f'<a href="{text(address)}">{shown}</a>'


def change_link(number: int) -> str:
    return link(f"change-{number}.html", str(number))


def moment(at: Optional[int], now: int, more: str = "") -> str:
    """A time, with its day if that is another one. The script puts it into the zone of the reader. With `data-exact` it has seconds."""
    if at is None:
        return ""
    seen, today = time.gmtime(at), time.gmtime(now)
    of_day = "%H:%M:%S" if "data-exact" in more else "%H:%M"
    shape = "%-d %b %Y" if seen.tm_year != today.tm_year else f"%-d %b {of_day}" if seen.tm_yday != today.tm_yday else of_day
    return f'<time{more and " "}{more} datetime="{time.strftime("%Y-%m-%dT%H:%M:%SZ", seen)}">{time.strftime(shape, seen)}</time>'


def exactly(at: Optional[int], now: int) -> str:
    return moment(at, now, "data-exact")


def made_at(at: int, facts: Sequence[str] = ()) -> str:
    """When a page was made, behind some facts. The script adds how long ago that is."""
    made = f'as of {moment(at, at, MADE)} <span id="age"></span>'
    return f'<p class="made">{"".join(f"<span>{it}</span>" for it in [*facts, made])}</p>\n'


def people(names: Sequence[str], said_by: str = "") -> str:
    """Some people, by whose word if that was somebody else's."""
    said = f' <span class="soft">(said by {line(said_by)})</span>' if said_by and list(names) != [said_by] else ""
    return ", ".join(map(line, names)) + said


def section(name: str, heading: str, content: str, more: str = "") -> str:
    """A part of a page with its heading."""
    small = f"<small>{more}</small>" if more else ""
    return f'<section aria-labelledby="{name}">\n<h2 id="{name}">{heading}{small}</h2>\n<div>\n{content}</div>\n</section>\n'


def alert(name: str, heading: str, paragraphs: Iterable[str], kind: str = "", more: str = "") -> str:
    """What has to be seen first."""
    said = "".join(f"<p>{it}</p>\n" for it in paragraphs)
    return (
        f'<section class="alert{kind and " " + kind}" aria-labelledby="{name}"{more}>\n<h2 id="{name}">{heading}</h2>\n<div>{said}</div>\n'
        "</section>\n"
    )


def table(caption: str, heads: Sequence[str], bodies: Iterable[str], kind: str = "") -> str:
    """A table. Its roles are named, since a narrow screen shows its rows as blocks."""
    cells = "".join(f'<th class="{WIDTHS[it]}" scope="col" role="columnheader">{it}</th>' for it in heads)
    named = f' class="{kind}"' if kind else ""
    return (
        f'<table role="table"{named}>\n<caption class="hidden">{caption}</caption>\n'
        f'<thead role="rowgroup"><tr role="row">{cells}</tr></thead>\n{"".join(bodies)}</table>\n'
    )


def row(*cells: str) -> str:
    return f'<tr role="row">{"".join(cells)}</tr>\n'


def body(rows: Iterable[str]) -> str:
    return f'<tbody role="rowgroup">\n{"".join(rows)}</tbody>\n'


def head(content: str) -> str:
    """A cell that names its row."""
    return f'<th class="number" scope="row" role="rowheader">{content}</th>'


def head_of_rows(content: str, columns: int) -> str:
    """A row that names those below it."""
    return row(f'<th class="batch" scope="rowgroup" colspan="{columns}" role="rowheader">{content}</th>')


def cell(content: str, rows: int = 1, kind: str = "", label: str = "") -> str:
    """A cell. On a narrow screen its label says what it is, since the heads of the columns aren't seen there."""
    span, named = (f' rowspan="{rows}"' if rows > 1 else ""), (f' class="{kind}"' if kind else "")
    said = f' data-is="{label}"' if label and content else ""
    return f'<td{named}{span}{said} role="cell">{content}</td>'


def terms(pairs: Iterable[Sequence[str]]) -> str:
    """A list of names with their values."""
    return "<dl>\n" + "".join(f"<dt>{name}</dt><dd>{value}</dd>\n" for name, value in pairs) + "</dl>\n"


def page(title: str, header: str, main: str, footer: str) -> str:
    """A whole page, which loads nothing else."""
    return f"""<!DOCTYPE html>
<html lang="en">
<head>
<meta charset="utf-8">
<meta http-equiv="Content-Security-Policy" content="{text(POLICY)}">
<meta name="viewport" content="width=device-width, initial-scale=1">
<meta name="color-scheme" content="light dark">
<meta name="referrer" content="no-referrer">
<meta name="robots" content="noindex">
<title>{text(title)}</title>
<link rel="icon" href="{ICON}">
<style>{STYLE}</style>
</head>
<body>
<a class="skip" href="#main">Skip to the content</a>
<header>
{header}</header>
<main id="main">
{main}</main>
<footer>
{footer}</footer>
<script>{SCRIPT}</script>
</body>
</html>
"""
