"""The page of the queue."""
from typing import Iterable, List, Sequence

from ..core.estimates import Estimate
from .markup import (
    alert, body, cell, change_link, code, commit, head, head_of_rows, is_address, line, link, made_at, moment, page, people, row, section,
    table, terms, text,
)
from .snapshot import RUNNING, ShownBatch, ShownChange, ShownCheck, ShownLanding, ShownMember, Snapshot

# So many of a list are shown. The document for programs has all.
MOST_SHOWN = 200
# A page is late if it is older than so many readings of the clock take, and some seconds more.
READINGS, SECONDS = 3, 60
# A text of settings with more lines is shown when it is asked for.
MOST_LINES = 14
MARKS = {"success": ("✓", "succeeded"), "failure": ("✗", "failed"), "error": ("✗", "failed"), "pending": ("↻", "runs again")}
OPEN = ("○", "has no result yet")
STATES = {"ordered": "being merged", "staged": "being tested", "landing": "landing"}


def page_of_queue(snapshot: Snapshot) -> str:
    parts = [
        *alerts(snapshot), running(snapshot), waiting(snapshot), not_approved(snapshot), landed(snapshot), settings(snapshot),
    ]
    title = f"{headline(snapshot)} · {snapshot.main} of {snapshot.repository}"
    return page(title, header(snapshot), "".join(filter(None, parts)), footer(snapshot))


def headline(snapshot: Snapshot) -> str:
    """What goes on, in a few words."""
    first = next((it for it in snapshot.batches if it.branch == "staging" and it.state in RUNNING), None)
    if snapshot.ended is not None:
        return "No host runs"
    if snapshot.freeze:
        return "The queue is frozen"
    if snapshot.broken:
        return f"{snapshot.main} is broken"
    if first:
        return f"Batch {first.number} is {STATES[first.state]}"
    return "No batch runs, and some wait" if snapshot.batches else "Nothing runs, and nothing waits"


def counted(number: int, name: str, plural: str = "") -> str:
    return f"{number} {name if number == 1 else plural or f'{name}s'}"


def header(snapshot: Snapshot) -> str:
    repository = line(snapshot.repository)
    at = f" at {commit(snapshot.base, snapshot.code)}" if snapshot.base else ", which isn't there yet"
    where = link(snapshot.code, repository) if is_address(snapshot.code) else repository
    waits = sum(len(it.changes) for it in snapshot.batches if it.state == "waiting")
    facts = [f"{counted(waits, 'change')} {'waits' if waits == 1 else 'wait'}"] if waits else []
    facts += [f"{len(snapshot.not_approved)} open and not approved"] if snapshot.not_approved else []
    heading = f"<h1>{text(headline(snapshot))}</h1>\n"
    return f'<p class="where">{where}, branch {line(snapshot.main)}{at}</p>\n{heading}{made_at(snapshot.at, facts)}'


def footer(snapshot: Snapshot) -> str:
    clock = f"The clock of the queue was read last at {moment(snapshot.clock, snapshot.at)}. " if snapshot.clock else ""
    return (
        f'<p>Times are in <span id="zone">UTC</span>. {clock}The host writes this page when something has changed, and while something '
        'waits at each reading of its clock, unless the queue is frozen. For programs the same is in '
        '<a href="queue.json">queue.json</a>.</p>\n'
    )


# What has to be seen first


def alerts(snapshot: Snapshot) -> Iterable[str]:
    now, freeze, broken = snapshot.at, snapshot.freeze, snapshot.broken
    if snapshot.ended is not None:
        yield alert("ended", "The host has ended", [
            f"It ended in order at {moment(snapshot.ended, now)}. Nothing is tested and nothing lands until it is started again."], "wait")
    elif snapshot.batches and not freeze:
        late = f' id="late" hidden data-late="{READINGS * snapshot.tick_seconds + SECONDS:.0f}"'
        said = "While something waits, the host writes it every few seconds. Perhaps no host runs, or the page can't be written."
        yield alert("is-late", "This page is older than it should be", [said], "wait", late)
    if freeze:
        by = f"By {line(freeze.person)} since {moment(freeze.at, now)}" + (f": {text(freeze.reason)}" if freeze.reason else "")
        yield alert("frozen", "Frozen", [by, "Nothing new is staged, and nothing lands."], "wait")
    if broken:
        yield alert("broken", f"{line(snapshot.main)} is broken by itself", [
            f"The check {line(broken.name)} fails on {commit(broken.base, snapshot.code)} alone, as seen at {moment(broken.at, now)}: "
            f"{text(broken.said)}.", *([text(broken.since)] if broken.since else []),
            *([f"The output of the check: {code(broken.output)}"] if broken.output else [])])
    if snapshot.troubles:
        yield alert("troubles", "Trouble", [text(it) for it in snapshot.troubles])


# Batches that run


def running(snapshot: Snapshot) -> str:
    found = [it for it in snapshot.batches if it.state in RUNNING]
    if not snapshot.batches:
        return ""
    shown = "".join(article(snapshot, it) for it in found) if found else '<p class="none">No batch runs.</p>\n'
    return section("running", "Running", shown)


def article(snapshot: Snapshot, batch: ShownBatch) -> str:
    now, name = snapshot.at, f"batch-{batch.number}"
    what = "Try" if batch.branch == "trying" else "Batch"
    known = [f"at {commit(batch.commit, snapshot.code)} on {line(batch.branch)}"] if batch.commit else [f"for {line(batch.branch)}"]
    known += [f"since {moment(batch.since, now)}"] if batch.since is not None else []
    known += [f"until {moment(batch.until, now)} at the latest"] if batch.until is not None else []
    known += [f"priority {batch.priority}"] if batch.priority else []
    facts = "".join(f"<span>{it}</span>" for it in [*known, *([] if batch.checks else [f"waits for {text(batch.waits_for)}"])])
    checks = "".join(map(check, batch.checks))
    listed_checks = f'<ul class="checks" aria-label="The required checks of batch {batch.number}">\n{checks}</ul>\n' if checks else ""
    heading = f'<h3 id="{name}">{what} {batch.number} <span>{STATES[batch.state]}</span></h3>\n<p class="facts">{facts}</p>\n'
    return f'<article aria-labelledby="{name}">\n{heading}{listed_checks}{changes_of(snapshot, batch)}</article>\n'


def check(it: ShownCheck) -> str:
    mark, said = MARKS.get(it.state, OPEN)
    state = {"error": "failure"}.get(it.state, it.state) if it.state in MARKS else "open"
    return f'<li class="{state}"><span class="mark" aria-hidden="true">{mark}</span><b>{line(it.name)}</b> <i>{said}</i></li>\n'


def changes_of(snapshot: Snapshot, batch: ShownBatch) -> str:
    is_try, there = batch.branch == "trying", snapshot.by_number()
    rows = [
        row(head(change_link(it.number)), cell(title(it), kind="what"), cell(line(it.author), kind="side", label="by"),
            *([] if is_try else [cell(approved(it), kind="side", label="approved by"), estimate_cell(snapshot, it.number)]))
        for number in batch.changes for it in [there[number]]
    ]
    heads = ["Change", "Title", "Author", *([] if is_try else ["Approved by", *estimate_head(snapshot)])]
    return table(f"The changes of batch {batch.number}", heads, [body(rows)], "rows short" if is_try else kind_of(snapshot, "rows"))


def title(it: ShownMember) -> str:
    """The title of a change, with its labels."""
    shown = f'<span class="title">{line(it.title)}</span>' if it.title else f'<span class="soft">at {commit(it.head)}</span>'
    labels = it.labels if isinstance(it, ShownChange) else ()
    return shown + "".join(f' <span class="label">{line(label)}</span>' for label in labels)


def approved(it: ShownMember) -> str:
    return people(it.approvers, it.said_by)


def estimate_head(snapshot: Snapshot) -> List[str]:
    return ["Probably lands"] if snapshot.estimates else []


def kind_of(snapshot: Snapshot, kind: str = "") -> str:
    """The kind of a table whose last column may be missing, so that the others stand below those of the other tables."""
    return kind if snapshot.estimates else f"{kind} loose".strip()


def estimate_cell(snapshot: Snapshot, number: int) -> str:
    """When a change will probably land, if anything is said of that of any change."""
    found = snapshot.estimates.get(number)
    return cell(estimated(found, snapshot.at) if found else "", kind="side whole", label="lands") if snapshot.estimates else ""


def estimated(it: Estimate, now: int) -> str:
    if it.earliest == it.latest:
        return moment(it.earliest, now)
    return f"{moment(it.earliest, now)} to {moment(it.latest, now)}"


# Batches that wait


def waiting(snapshot: Snapshot) -> str:
    found = [it for it in snapshot.batches if it.state not in RUNNING]
    if not found:
        return section("waiting", "Waiting", '<p class="none">Nothing waits.</p>\n') if snapshot.batches else ""
    heads = ["Change", "Title", "Author", "Approved by", *estimate_head(snapshot)]
    bodies = [waiting_batch(snapshot, it, len(heads)) for it in found[:MOST_SHOWN]]
    shown = table("What waits, in the order of service", heads, bodies, kind_of(snapshot))
    more = f"{counted(sum(len(it.changes) for it in found), 'change')} in {counted(len(found), 'batch', 'batches')}"
    counts = sorted({it.batches for it in snapshot.estimates.values()})
    last = "the last batch" if counts == [1] else f"the last {counts[-1] if counts else 0} batches"
    note = f'<p class="note">When changes will land is estimated by how long {last} took.</p>\n' if counts else ""
    return section("waiting", "Waiting", shown + more_of(len(found)) + note, more)


def more_of(number: int) -> str:
    return f'<p class="note">And {number - MOST_SHOWN} more, which are in queue.json.</p>\n' if number > MOST_SHOWN else ""


def waiting_batch(snapshot: Snapshot, batch: ShownBatch, columns: int) -> str:
    there = snapshot.by_number()
    more = [*([f"priority {batch.priority}"] if batch.priority else []), f"waits for {text(batch.waits_for)}"]
    about = "".join(f' <span class="about">{it}</span>' for it in more)
    rows = [
        row(head(change_link(it.number)), cell(title(it), kind="what"), cell(line(it.author), kind="side", label="by"),
            cell(approved(it), kind="side", label="approved by"), estimate_cell(snapshot, it.number))
        for it in (there[number] for number in batch.changes)
    ]
    name = f"{'Try' if batch.branch == 'trying' else 'Batch'} {batch.number}"
    return body([head_of_rows(f"{name}{about}", columns), *rows])


# Changes that aren't approved


def not_approved(snapshot: Snapshot) -> str:
    there = snapshot.by_number()
    tried = {change: it.number for it in snapshot.batches if it.branch == "trying" for change in it.changes}
    rows = [
        row(head(change_link(it.number)), cell(title(it), kind="what"), cell(line(it.author), kind="side", label="by"),
            cell(remark(it, tried.get(number, 0))))
        for number in snapshot.not_approved[:MOST_SHOWN] for it in [there[number]]
    ]
    heads = ["Change", "Title", "Author", "What became of it"]
    name, count = "Open, not approved", len(snapshot.not_approved)
    if not rows:
        return section("open", name, '<p class="none">Every open change is approved, or none is open.</p>\n')
    return section("open", name, table(name, heads, [body(rows)], "rows") + more_of(count), counted(count, "change"))


def remark(it: ShownChange, batch: int = 0) -> str:
    attempt = f"It is tried with batch {batch}. " if batch else ""
    return f'<span class="soft">{attempt}{f"Left the queue: {text(it.left)}." if it.left else ""}</span>' if attempt or it.left else ""


# What landed


def landed(snapshot: Snapshot) -> str:
    if not snapshot.landed:
        return section("landed", "Landed last", '<p class="none">Nothing has landed yet.</p>\n')
    heads = ["Change", "Title", "Author", "Approved by", "When", "Commit"]
    return section("landed", "Landed last", table("What landed last, the latest first", heads, [
        landed_batch(snapshot, it) for it in snapshot.landed]))


def landed_batch(snapshot: Snapshot, landing: ShownLanding) -> str:
    at, name = moment(landing.at, snapshot.at), commit(landing.commit, snapshot.code)
    last = [cell(at, kind="side soft", label="at"), cell(name, kind="side", label="as")]
    if not landing.changes:
        return body([row(head(""), cell(f'<span class="soft">batch {landing.batch}</span>', kind="what"), cell(""), cell(""), *last)])
    return body(
        row(head(change_link(it.number)), cell(title(it), kind="what"), cell(line(it.author), kind="side", label="by"),
            cell(approved(it), kind="side", label="approved by"), *last)
        for it in landing.changes)


# Settings


def settings(snapshot: Snapshot) -> str:
    it = snapshot.settings
    pairs = [
        ("Required", names(it.required) if it.required is not None else "not known at present"),
        *([("Time", f"A batch fails after {counted(it.timeout, 'second')}.")] if it.timeout else []),
        *([("Run here", names(it.checks))] if it.checks else []),
        *([("Reported", ", ".join(f"{line(name)} by {people(who)}" for name, who in it.reporters))] if it.reporters else []),
    ]
    why = f"The settings of {commit(it.commit)} aren't taken, and those of before stay: {text(it.refusal)}"
    refused = f"<p>{why}</p>\n" if it.refusal else ""
    said = "".join(f"<li>{text(remark)}</li>\n" for remark in snapshot.remarks)
    remarks = f'<ul class="plain remarks" aria-label="What the host says besides">\n{said}</ul>\n' if said else ""
    return section("settings", "Settings in force", refused + terms(pairs) + text_of_settings(it.text) + remarks)


def names(found: Sequence[str]) -> str:
    return ", ".join(map(line, found)) or "none"


def text_of_settings(toml: str) -> str:
    if not toml:
        return '<p class="none">No bors.toml has been taken yet.</p>\n'
    is_short = " open" if toml.count("\n") <= MOST_LINES else ""
    return (
        f'<details id="text" class="box"{is_short}><summary>bors.toml, as it was taken last</summary>\n<pre>{text(toml)}</pre></details>\n'
    )
