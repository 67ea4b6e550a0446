"""Numbers to watch, in the text format of Prometheus. What is counted is counted by the journal, so it doesn't go back at a start."""
from dataclasses import dataclass
from typing import Dict, Iterable, List, NamedTuple, Optional, Sequence, Tuple

from ..core.counts import Counts
from ..core.words import NOTICES, TRIES
from .snapshot import RUNNING, Snapshot

BRANCHES, STATES = ("staging", "trying"), ("waiting", *RUNNING)


@dataclass(frozen=True)
class Starts:
    """How often the host and the bot were started."""

    host: int
    bot: int


class Sample(NamedTuple):
    """A number with its labels, behind what is added to the name of its family."""

    value: float
    labels: Tuple[Tuple[str, str], ...] = ()
    ending: str = ""


class Family(NamedTuple):
    """Numbers of one name: their type, what they mean, and the numbers themselves."""

    name: str
    type: str
    meaning: str
    samples: Sequence[Sample]


def metrics_of(snapshot: Snapshot, counts: Counts, last_fact: int, starts: Starts) -> str:
    """All numbers. A family without one is left out."""
    families = [*of_queue(snapshot), *of_journal(counts, last_fact), *of_batches(counts), *of_checks(counts), *of_starts(snapshot, starts)]
    return "".join(text_of(it) for it in families if it.samples)


def of_queue(snapshot: Snapshot) -> Iterable[Family]:
    places = [(branch, state) for branch in BRANCHES for state in STATES]
    batches = {place: [it for it in snapshot.batches if (it.branch, it.state) == place] for place in places}
    waiting = [it.since for it in batches[("staging", "waiting")] if it.since is not None]
    running = [it for it in snapshot.batches if it.state in RUNNING and it.since is not None]
    approved = [len(snapshot.changes) - len(snapshot.not_approved), len(snapshot.not_approved)]
    yield Family("gate_queue_batches", "gauge", "Batches in the queue.", [
        Sample(len(batches[place]), placed(*place)) for place in places])
    yield Family("gate_queue_changes", "gauge", "Changes in the batches of the queue.", [
        Sample(sum(len(it.changes) for it in batches[place]), placed(*place)) for place in places])
    yield Family("gate_open_changes", "gauge", "Open changes, by whether they are approved.", [
        Sample(number, (("approved", said),)) for number, said in zip(approved, ("yes", "no"))])
    yield Family("gate_queue_oldest_approval_timestamp_seconds", "gauge", "When the change was approved that waits longest.", [
        *([Sample(min(waiting))] if waiting else [])])
    yield Family("gate_batch_since_timestamp_seconds", "gauge", "Since when the batch that runs on a branch is in its state.", [
        Sample(it.since or 0, placed(it.branch, it.state)) for it in running])
    yield Family("gate_clock_reading_timestamp_seconds", "gauge", "The last reading of the clock.", read(snapshot.clock))
    yield Family("gate_queue_frozen", "gauge", "Whether the queue is frozen.", [Sample(int(snapshot.freeze is not None))])
    yield Family("gate_main_broken", "gauge", "Whether a required check is known to fail on the main branch alone.", [
        Sample(int(snapshot.broken is not None))])
    yield Family("gate_troubles", "gauge", "What isn't as it should be, as it stands below the queue.", [Sample(len(snapshot.troubles))])


def of_journal(counts: Counts, last_fact: int) -> Iterable[Family]:
    yield Family("gate_journal_facts_total", "counter", "Facts in the journal.", [Sample(counts.facts)])
    yield Family("gate_journal_last_fact_timestamp_seconds", "gauge", "When the last fact was written down.", read(last_fact))


def of_batches(counts: Counts) -> Iterable[Family]:
    reasons = {**dict.fromkeys([*NOTICES, *TRIES], 0), **counts.notices}
    yield Family("gate_batches_staged_total", "counter", "Batches that were staged.", [
        Sample(counts.staged.get(branch, 0), (("branch", branch),)) for branch in BRANCHES])
    yield Family("gate_batches_landed_total", "counter", "Batches that landed.", [Sample(counts.landed)])
    yield Family("gate_changes_landed_total", "counter", "Changes that landed.", [Sample(counts.landed_changes)])
    yield Family("gate_landings_refused_total", "counter", "Orders to land that couldn't be done, as the main branch had moved.", [
        Sample(counts.refused)])
    yield Family("gate_batch_conflicts_total", "counter", "Batches that couldn't be merged.", [Sample(counts.conflicts)])
    yield Family("gate_notices_total", "counter", "Notices that an approval or a try of a change has ended, by the reason.", [
        Sample(number, (("reason", reason),)) for reason, number in sorted(reasons.items())])


def of_checks(counts: Counts) -> Iterable[Family]:
    took = sorted(counts.seconds.items())
    results: Dict[str, int] = {}
    for (name, _), number in counts.results.items():
        results[name] = results.get(name, 0) + number
    yield Family("gate_check_results_total", "counter", "Results of checks of batches, by the state.", [
        Sample(number, (("check", name), ("state", state))) for (name, state), number in sorted(counts.results.items())])
    yield Family("gate_check_seconds", "summary", "How long results of checks took, from the staging of their batches.", [
        sample for name, seconds in took for sample in (
            Sample(seconds, (("check", name),), "_sum"), Sample(results.get(name, 0), (("check", name),), "_count"))])
    yield Family("gate_check_faults_total", "counter", "Checks that came to no verdict by a fault of the host.", [
        Sample(number, (("check", name),)) for name, number in sorted(counts.faults.items())])


def of_starts(snapshot: Snapshot, starts: Starts) -> Iterable[Family]:
    yield Family("gate_host_up", "gauge", "Whether the host hasn't ended in order.", [Sample(int(snapshot.ended is None))])
    yield Family("gate_host_starts_total", "counter", "Starts of the host.", [Sample(starts.host)])
    yield Family("gate_bot_starts_total", "counter", "Starts of the bot.", [Sample(starts.bot)])


def placed(branch: str, state: str) -> Tuple[Tuple[str, str], ...]:
    return ("branch", branch), ("state", state)


def read(at: int) -> List[Sample]:
    """A time, unless there is none yet."""
    return [Sample(at)] if at else []


# The text


def text_of(family: Family) -> str:
    lines = [f"# HELP {family.name} {family.meaning}", f"# TYPE {family.name} {family.type}"]
    return "".join(f"{line}\n" for line in [*lines, *(line_of(family.name, it) for it in family.samples)])


def line_of(name: str, sample: Sample) -> str:
    labels = ",".join(f'{label}="{escaped(value)}"' for label, value in sample.labels)
    return f"{name}{sample.ending}{f'{{{labels}}}' if labels else ''} {sample.value}"


def escaped(value: str) -> str:
    """A value of a label, as it stands between quotes."""
    written = value.encode("utf-8", "backslashreplace").decode()
    return written.replace("\\", "\\\\").replace('"', '\\"').replace("\n", "\\n")


def starts_in(mark: str) -> Optional[Starts]:
    """The starts that a mark of the journal has, if it has any."""
    words = mark.split()
    return Starts(int(words[0]), int(words[1])) if len(words) == 2 and all(it.isdecimal() for it in words) else None


def mark_of(starts: Starts) -> str:
    return f"{starts.host} {starts.bot}"
