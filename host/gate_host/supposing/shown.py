"""What people are shown of a comparison: some lines of text, or one document of JSON."""
import json
from dataclasses import asdict
from typing import Iterator, List, Mapping, Tuple

from ..audit.shown import plain, time_of_day
from .compared import Comparison, Counts, Difference
from .evidence import Basis

HEADINGS = ("", "as it was", "played again", "supposed")
WORDS = {Basis.KNOWN: "known", Basis.INFERRED: "inferred", Basis.GUESSED: "a guess"}
# So many changes that differ are told.
MOST_TOLD = 200


def text_of(found: Comparison) -> str:
    """The lines, without anything that a terminal obeys."""
    return "".join(f"{plain(line)}\n" for line in lines_of(found))


def lines_of(found: Comparison) -> Iterator[str]:
    yield (
        f"These settings stand in place of those that were taken, {often(found.replaced)}. Nothing else that people and the world did is "
        "altered."
    )
    yield ""
    yield from table_of(found)
    yield ""
    yield near_in_words(found)
    yield from basis_in_words(found)
    if found.freezes:
        yield f"The queue was frozen {often(found.freezes)}. A play goes on meanwhile, so landings about that time are told wrongly."
    yield ""
    yield from lines_of_differences(found)


def table_of(found: Comparison) -> Iterator[str]:
    """What truly happened, and the two plays, in numbers side by side."""
    names = (
        "changes that landed", "from approval to landing, on average", "batches", "checks with a verdict", "changes found to be at fault",
        "after how many batches, on average", "changes that still wait",
    )
    columns = [cells_of(it) for it in (found.truly, found.before, found.after)]
    rows: List[Tuple[str, ...]] = [HEADINGS, *zip(names, *columns)]
    widths = [max(len(row[column]) for row in rows) for column in range(len(HEADINGS))]
    for name, *cells in rows:
        yield "  ".join([name.ljust(widths[0]), *(cell.rjust(width) for cell, width in zip(cells, widths[1:]))]).rstrip()


def cells_of(counts: Counts) -> List[str]:
    mean = f"{counts.batches_of_found / 100:.1f}" if counts.found else "-"
    return [
        str(counts.landed), length(counts.mean_seconds) if counts.landed else "-", str(counts.batches), str(counts.checks),
        str(counts.found), mean, str(counts.waiting),
    ]


def near_in_words(found: Comparison) -> str:
    near = found.nearness
    apart = f"{length(near.middle)} apart in the middle and {length(near.most)} at the most" if near.both else "none to compare"
    alone = f"; {near.alone} landed in one of the two alone" if near.alone else ""
    return (
        f"Played again under the settings of the journal, {near.both} of {found.truly.landed} changes landed as they did: {apart}{alone}. "
        "What follows compares two plays, and is no better than that."
    )


def basis_in_words(found: Comparison) -> Iterator[str]:
    """On what the play under the supposed settings rests."""
    for what, counts in (("merges", found.merges), ("checks", found.checks)):
        yield f"Of {sum(counts.values())} {what}, {counted(counts)}."
    if found.unseen:
        yield f"No check of this name ever had a verdict, so that it succeeds is a guess, and so is its time: {', '.join(found.unseen)}."


def often(times: int) -> str:
    return "once" if times == 1 else f"{times} times"


def counted(counts: Mapping[Basis, int]) -> str:
    known, inferred, guessed = (counts.get(it, 0) for it in Basis)
    return f"{known} are known, {inferred} are inferred from other batches, and {guessed} are guesses"


def lines_of_differences(found: Comparison) -> Iterator[str]:
    since = f" from {time_of_day(found.since)} on" if found.since is not None else ""
    if not found.differences:
        yield f"No change lands at another time{since}."
        return
    yield f"{len(found.differences)} changes land at another time, or not{since}:"
    yield from (f"  {line_of(it)}" for it in found.differences[:MOST_TOLD])
    more = len(found.differences) - MOST_TOLD
    if more > 0:
        yield f"  and {more} more"


def line_of(it: Difference) -> str:
    truly = f"; truly at {time_of_day(it.truly)}" if it.truly not in (None, it.before) else ""
    return f"{WORDS[it.basis]}: change {it.change} {difference_in_words(it)}{truly}"


def difference_in_words(it: Difference) -> str:
    if it.after is None:
        return f"doesn't land, and landed at {time_of_day(it.before)}: {it.why}"
    if it.before is None:
        return f"lands at {time_of_day(it.after)}, and didn't land"
    return f"lands {length(abs(it.seconds))} {'later' if it.seconds > 0 else 'earlier'}, at {time_of_day(it.after)}"


def length(seconds: int) -> str:
    """A length of time in words."""
    if seconds < 120:
        return f"{seconds} s"
    minutes = seconds // 60
    return f"{minutes} min {seconds % 60} s" if minutes < 120 else f"{minutes // 60} h {minutes % 60} min"


def json_of(found: Comparison) -> str:
    """One document with all that the text has, for programs. Times are whole seconds since 1970."""
    table = asdict(found)
    table["differences"] = [{**asdict(it), "basis": it.basis.name.lower()} for it in found.differences]
    for name in ("merges", "checks"):
        counts = found.merges if name == "merges" else found.checks
        table[name] = {it.name.lower(): counts.get(it, 0) for it in Basis}
    table["found"] = [{"change": change, "why": why, "batches": batches} for change, why, batches in found.found]
    return json.dumps(table, indent=1) + "\n"
