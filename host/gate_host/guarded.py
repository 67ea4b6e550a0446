"""The bare repository as the host works on it: what the ports of changes and of the repository are here."""
import os
from functools import partial
from typing import Dict, Iterable, List, Mapping, Optional, Sequence, Tuple, Union

from .core.facts import Conflicted, Merged
from .core.known import Batch, Known
from .core.notes import Note
from .core.orders import Land
from .core.words import MOST_IN_SETTINGS, merge_message
from .git import GitFailed
from .hook import change_in
from .inspection import blocking
from .places import Places
from .ports import Look
from .repository import BRANCHES, Branch, Repository
from .repository import Merged as MergeMade
from .spool import Spool
from .troubles import complain


class BranchesAndNotes:
    """Changes are branches `change/NUMBER`, and comments are notes in the spool."""

    def __init__(self, places: Places, repository: Repository, spool: Spool):
        self.places, self.repository, self.spool = places, repository, spool

    @property
    def has_more(self) -> bool:
        return self.spool.has_more

    def take(self) -> Sequence[Note]:
        return [it.said for it in self.spool.take()]

    def remove(self, name: str) -> None:
        self.spool.remove(name)

    def look(self) -> Look:
        branches = self.repository.all_branches()
        main = branches.get(self.repository.main)
        heads = {change_in(name): branch.commit for name, branch in branches.items() if change_in(name)}
        return Look(main.commit if main else None, heads, self.in_way(branches))

    def in_way(self, branches: Dict[str, Branch]) -> List[str]:
        """Which branch stands in the way of one of the host's, or is another name of one."""
        own = [self.repository.main, *self.repository.staged_on.values()]
        in_way = [f"{name} is in the way of {branch}; rename it" for branch in own for name in blocking(branches, branch)]
        if os.path.lexists(self.places.repository / "commondir"):
            in_way.append(f"{self.places.repository}/commondir has git read another repository; remove it")
        aliases = [f"{name} is another name of {it.of}, and a push to it moves that" for name, it in branches.items() if it.of in own]
        return in_way + aliases


class Guarded:
    """The guarded repository with the mirror in which commits are merged."""

    def __init__(self, repository: Repository):
        self.repository = repository

    def fetch(self, heads: Mapping[int, str]) -> Dict[int, str]:
        found = self.repository.fetch({f"change/{change}": head for change, head in heads.items()})
        return {change: found[f"change/{change}"] for change in heads if f"change/{change}" in found}

    def forget(self, changes: Iterable[int]) -> None:
        self.repository.forget(f"change/{change}" for change in changes)

    def settings_at(self, commit: str, most: int) -> Optional[str]:
        self.repository.must_have("main", commit)
        return self.repository.text_at(commit, "bors.toml", most)

    def merge(self, order: str, batch: Batch) -> Union[Merged, Conflicted]:
        merged = self.merged(batch)
        if merged.commit is None:
            return Conflicted(order, merged.conflicting, merged.why)
        self.repository.keep(f"staged/{batch.stage.branch}", merged.commit)
        return Merged(order, merged.commit)

    def merged(self, batch: Batch) -> MergeMade:
        return self.repository.merge_batch(batch.stage, batch.now, partial(merge_message, batch))

    def settings_of(self, batch: Batch) -> Tuple[Optional[str], Optional[str]]:
        self.bring(batch)
        base, merge = (self.repository.text_at(it, "bors.toml", MOST_IN_SETTINGS) for it in (batch.stage.base, batch.commit))
        return base, merge

    def drop(self, change: int, head: str) -> None:
        self.repository.drop_branch(f"{BRANCHES}change/{change}", head)

    def bring(self, batch: Batch) -> None:
        """Has the merge of a batch in the mirror. It may not be there any more, if the records were put back or are of an older host. The
        guarded repository has it then, or it is made again, which gives the same commit."""
        name = f"staged/{batch.stage.branch}"
        try:
            self.repository.must_have(name, batch.commit)
        except GitFailed:
            if self.merged(batch).commit != batch.commit:
                raise
            self.repository.keep(name, batch.commit)

    def point(self, batch: Batch, known: Known) -> None:
        self.bring(batch)
        before = self.repository.branches().get(self.repository.staged_on[batch.stage.branch])
        is_own = before is None or before in known.made
        kept = self.repository.stage(batch.stage.branch, batch.commit, before, is_own)
        if kept:
            complain(f"the branch {batch.stage.branch} was at a commit that the host didn't make; it is kept as {kept}")

    def land(self, land: Land, batch: Batch) -> bool:
        try:
            self.bring(batch)
        except GitFailed:
            # It matters only while the main branch is at the base.
            if self.repository.branches().get(self.repository.main) == land.base:
                raise
        return self.repository.land(land)

    def tidy(self, known: Known) -> None:
        def is_needed(name: str) -> bool:
            change = change_in(f"refs/heads/{name}")
            return not change or known.phase(change) == "open" or change not in known.changes
        self.repository.tidy(is_needed)
