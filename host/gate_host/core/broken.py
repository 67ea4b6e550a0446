"""Whether the main branch itself is broken, for a host whose settings have `retest_base`.

If a required check of a batch of one change fails, that is written down as a doubt, and the check runs on the base of the batch alone.
Then the failure is told the bot, which does what it always does. What people are told says whether the base fails the check as well.
"""
from dataclasses import dataclass
from typing import TYPE_CHECKING, Collection, Dict, Iterable, Mapping, Optional

from .facts import Doubted

if TYPE_CHECKING:
    from .known import Batch, Known, Test

# Tests of the base are told apart from those of batches by this in the place of a branch.
MAIN = "main"
# What a check of the base has that needn't run there.
SKIPPED = "skipped"


@dataclass(frozen=True)
class Broken:
    """Which check failed on which commit of the main branch, how, the name of the file with its output, and when that was written down, in
    seconds since 1970. And how the main branch came to that commit, in words."""

    name: str
    base: str
    said: str
    output: str
    at: int
    since: str


def is_doubtful(known: "Known", batch: "Batch", name: str, required: Collection[str]) -> bool:
    """Whether the base has to be tested before a failure of this check is told. Each check runs once on each base."""
    stage = batch.stage
    is_alone = stage.branch == "staging" and len(stage.heads) == 1 and stage.batch not in known.over
    return is_alone and name in required and name not in known.base_states.get(stage.base, {})


def doubts_of(known: "Known", batch: int) -> Dict[str, Doubted]:
    """What is doubted of a batch, by the names of its checks."""
    return {name: it for (number, name), it in known.doubts.items() if number == batch}


def base_test(known: "Known") -> "Optional[Test]":
    """What has to be tested of the base, if anything has."""
    from .known import Test
    test = known.tests.get("staging")
    batch = known.batch_of(test.batch) if test else None
    if batch is None or batch.stage.batch in known.over or not doubts_of(known, batch.stage.batch):
        return None
    return Test(MAIN, batch.stage.batch, batch.stage.base)


def done_on_base(known: "Known", test: "Test", checks: Iterable[str], is_parallel: bool) -> Mapping[str, str]:
    """What needn't run on the base: what has a result there, and what isn't doubted. But a check may need what one before it has made,
    unless they run side by side."""
    wanted, names = doubts_of(known, test.batch), list(checks)
    last = max((names.index(name) for name in wanted if name in names), default=-1)
    skipped = [name for place, name in enumerate(names) if place > last or (is_parallel and name not in wanted)]
    return {**dict.fromkeys(skipped, SKIPPED), **known.base_states.get(test.commit, {})}


def is_failure_of_main(known: "Known", batch: "Optional[Batch]", name: str) -> bool:
    """Whether the base of a batch fails a check as well."""
    return batch is not None and known.base_states.get(batch.stage.base, {}).get(name) == "failure"
