"""What people are shown of an audit: a table with a line for each step, the findings, and the counts; or one document of JSON."""
import json
import time
from dataclasses import dataclass
from typing import Dict, List, Optional, Sequence, Tuple

from .entries import Finding, Json
from .steps import Step
from .story import Approval, Landing

HEADINGS = ("commit", "when", "what", "changes", "approved by", "statuses")
SHORT_COMMIT, SHORT_HEAD = 10, 7
# A column is no wider, and a cell that is longer goes on.
WIDEST = 60


@dataclass(frozen=True)
class Result:
    """What an audit has found out: of which branch up to which commit, how many facts and deliveries it read, each step, and the findings
    that are about no step."""

    branch: str
    tip: str
    facts: int
    deliveries: int
    answers: int
    steps: Sequence[Step]
    others: Sequence[Finding]

    @property
    def findings(self) -> List[Finding]:
        return [*self.others, *(finding for step in self.steps for finding in step.findings)]


def text_of_result(result: Result) -> str:
    """The table, the findings, and the counts."""
    lines = [*(table_of([row_of(step) for step in result.steps]) if result.steps else [])]
    lines += [f"FINDING {finding.kind}: {finding.said}" for finding in result.findings]
    lines.append(counts_in_words(result))
    return "".join(f"{plain(line)}\n" for line in lines)


def table_of(rows: Sequence[Sequence[str]]) -> List[str]:
    """The lines of a table. Each column is as wide as its longest cell, up to a limit: a batch may have many changes."""
    widths = [min(WIDEST, max(len(row[place]) for row in [HEADINGS, *rows])) for place in range(len(HEADINGS))]
    return ["  ".join(cell.ljust(width) for cell, width in zip(row, widths)).rstrip() for row in [HEADINGS, *rows]]


def row_of(step: Step) -> List[str]:
    landing = step.landing
    return [
        step.commit[:SHORT_COMMIT], time_of_day(step.at), what_of(step),
        ", ".join(f"{change} {head[:SHORT_HEAD]}" for change, head in heads_of(landing)) or "-",
        approvers_of(landing) if landing else "-",
        ", ".join(status_of(landing, name) for name in step.required) or "-" if landing else "-",
    ]


def what_of(step: Step) -> str:
    """What a step is, in a few words."""
    if step.landing:
        return f"batch {step.landing.land.batch}"
    person = step.move.person if step.move else None
    word = {"push": f"push by {person or 'somebody'}", "stray": "moved by nobody who may"}.get(step.kind, step.kind)
    return word if step.is_step else f"{word}, left no step"


def heads_of(landing: Optional[Landing]) -> List[Tuple[int, str]]:
    return list(landing.stage.heads) if landing and landing.stage else []


def approvers_of(landing: Landing) -> str:
    """Who approved the changes: all at once if it is the same for all, and else by change."""
    found = [approver_of(landing.approvals.get(change), head) for change, head in heads_of(landing)]
    if len(set(found)) == 1:
        return found[0]
    return ", ".join(f"{change}: {who}" for (change, _), who in zip(heads_of(landing), found)) or "-"


def approver_of(approval: Optional[Approval], head: str) -> str:
    if approval is None or approval.head != head:
        return "nobody"
    names = " and ".join(approval.approvers)
    return names if approval.approvers == (approval.person,) else f"{names} (said by {approval.person})"


def status_of(landing: Landing, name: str) -> str:
    """A status that was a success goes by its name alone."""
    state = landing.states.get(name, "missing")
    return name if state == "success" else f"{name} {state}"


def counts_in_words(result: Result) -> str:
    counts = counts_of(result)
    branch = f"{counted(counts['steps'], 'step')} of {result.branch} up to {result.tip}"
    steps = f"{counted(counts['landings'], 'landing')} with {counted(counts['changes'], 'change')}, {counts['pushes']} past the queue"
    answers = f"{counted(result.answers, 'answer')} to {counted(result.deliveries, 'delivery', 'deliveries')}"
    journal = f"{counted(result.facts, 'fact')}, {answers}"
    return f"{branch}: {steps}; {journal}; {counted(counts['findings'], 'finding')}"


def counted(count: int, one: str, several: str = "") -> str:
    return f"{count} {one if count == 1 else several or one + 's'}"


def counts_of(result: Result) -> Dict[str, int]:
    landings = [step.landing for step in result.steps if step.landing]
    there = [step for step in result.steps if step.is_step]
    return {
        "steps": len(there), "landings": len(landings), "changes": sum(len(heads_of(it)) for it in landings),
        "pushes": len(there) - len(landings), "facts": result.facts, "deliveries": result.deliveries, "answers": result.answers,
        "findings": len(result.findings),
    }


def json_of_result(result: Result) -> str:
    """One document with all that the text has, for programs. Times are whole seconds since 1970."""
    return json.dumps({
        "branch": result.branch, "tip": result.tip, "steps": [table_of_step(step) for step in result.steps],
        "findings": [{"kind": it.kind, "about": it.about, "said": it.said} for it in result.findings], "counts": counts_of(result),
    }, indent=1) + "\n"


def table_of_step(step: Step) -> Dict[str, Json]:
    landing, move = step.landing, step.move
    table: Dict[str, Json] = {"commit": step.commit, "kind": step.kind, "at": step.at, "is_step": step.is_step}
    if move:
        table.update(delivery=move.base.id, before=move.before, after=move.base.commit, person=move.person)
    if landing:
        changes = [table_of_change(change, head, landing.approvals.get(change)) for change, head in heads_of(landing)]
        statuses = {name: landing.states.get(name) for name in step.required}
        table.update(order=landing.name, batch=landing.land.batch, base=landing.land.base, changes=changes, statuses=statuses)
    return table


def table_of_change(change: int, head: str, approval: Optional[Approval]) -> Dict[str, Json]:
    table: Dict[str, Json] = {"change": change, "head": head, "approved_by": [], "said_by": None, "delivery": None, "at": None}
    if approval and approval.head == head:
        table.update(approved_by=list(approval.approvers), said_by=approval.person, delivery=approval.id, at=approval.at)
    return table


def time_of_day(at: Optional[int]) -> str:
    """A time as people read it. One that no clock has is none."""
    try:
        return "-" if at is None else time.strftime("%Y-%m-%d %H:%M:%S %z", time.localtime(at))
    except (OverflowError, OSError, ValueError):
        return "-"


def plain(text: str) -> str:
    """A text without the characters that a terminal obeys, on one line."""
    return "".join(it if it.isprintable() else "?" for it in text)
