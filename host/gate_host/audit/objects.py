"""The repository, read so that each object is the one that is named.

Git reads other objects than those that are named if it finds replace refs or grafts, and takes what stands in a file of objects at its
name. So nothing is read in the repository itself. The branch is fetched into a mirror of the audit's own, for which git computes each name
anew; and no settings of the repository are obeyed on the way.
"""
import os
from pathlib import Path
from typing import Dict, List, Mapping, Optional

from ..faults import Trouble
from ..git import GitFailed, ask_git, make_mirror, make_window, run_git
from ..places import pointed_to
from .entries import Finding, Stage, shown
from .steps import Commit, Remade

BRANCHES = "refs/heads/"
REPLACED = "refs/replace/"
NAME = "refs/gate/main"
SECONDS_FOR_OBJECTS = 3600
SECONDS_FOR_MERGE = 600
# Git may find many objects that aren't as they should be.
MOST_SHOWN = 5


class Objects:
    """A repository and its main branch, with a mirror of it in a folder that goes away with the audit."""

    def __init__(self, folder: Path, repository: Path, branch: str):
        self.repository, self.branch = repository, branch
        self.mirror, self.window = folder / "mirror", folder / "window"
        make_mirror(self.mirror)
        # As one that others write it gets nothing written.
        make_window(self.window, repository, "false", "false", True)
        tip, _ = pointed_to(repository, BRANCHES + branch)
        if tip is None:
            raise Trouble(f"{repository} has no branch {branch}; name the main branch by --main")
        self.tip = tip

    def is_at_tip(self) -> bool:
        """Whether the branch still is where it was."""
        return pointed_to(self.repository, BRANCHES + self.branch)[0] == self.tip

    def replacements(self) -> List[Finding]:
        """What has git read other objects than those that are named, for whoever reads the branch in the repository."""
        written = ask_git(self.window, "for-each-ref", "--format=%(refname) %(objectname)", REPLACED)
        found = []
        for line in written.splitlines():
            name, instead = line.split(" ")
            said = f"{name} has git read {instead} in the place of {name[len(REPLACED):]}: who reads the branch may see another one"
            found.append(Finding("replacement", said, name))
        grafts = self.repository / "info/grafts"
        if os.path.lexists(grafts):
            found.append(Finding("replacement", f"{grafts} has git read other parents of commits than they have", "info/grafts"))
        return found

    def fetch(self) -> List[Finding]:
        """Brings the branch into the mirror. What can't come as it is named is a finding."""
        ran = run_git(
            self.mirror, "fetch", "--quiet", "--no-tags", "--no-write-fetch-head", str(self.window), f"+{self.tip}:{NAME}",
            seconds=SECONDS_FOR_OBJECTS,
        )
        if ran.status == 0:
            return []
        said = f"not all of the {self.branch} branch can be read as it is named, so none of its steps can be looked at: {ran.said}"
        return [Finding("object", self.here(said), self.tip), *self.altered()]

    def here(self, said: str) -> str:
        """What git said of the repository, which it reads by way of another folder."""
        return said.replace(str(self.window), str(self.repository))

    def altered(self) -> List[Finding]:
        """Which objects those are, as far as git can tell."""
        try:
            ran = run_git(self.window, "fsck", "--full", "--no-dangling", "--no-progress", self.tip, seconds=SECONDS_FOR_OBJECTS)
        except GitFailed as fault:
            return [Finding("object", f"git can't tell which objects those are: {fault}", self.tip)]
        words = f"{ran.said} {' '.join(ran.output.split())}".replace("error: ", "\n").replace("missing ", "\nmissing ").split("\n")
        return [Finding("object", shown(self.here(it.strip())), self.tip) for it in words[1:1 + MOST_SHOWN]]

    def walk(self) -> List[Commit]:
        """The branch from its beginning, each commit the first parent of the next."""
        written = ask_git(self.mirror, "log", "--first-parent", "--reverse", "--format=%H %T %P", NAME, seconds=SECONDS_FOR_OBJECTS)
        return [Commit(name, tree, tuple(parents)) for name, tree, *parents in map(str.split, written.splitlines())]

    def text_at(self, commit: str, name: str, most: int) -> Optional[str]:
        """The text of a file of a commit, or none if it has no such file, or one with more bytes."""
        found = ask_git(self.mirror, "ls-tree", "--long", commit, "--", name).split()
        if found[1:2] != ["blob"] or int(found[3]) > most:
            return None
        return ask_git(self.mirror, "cat-file", "blob", found[2])

    def message_of(self, commit: str) -> str:
        return ask_git(self.mirror, "log", "-1", "--no-show-signature", "--format=%B", commit)

    def remake_all(self, stages: Mapping[str, Stage]) -> Dict[str, Remade]:
        return {commit: self.remake(stage) for commit, stage in stages.items()}

    def remake(self, stage: Stage) -> Remade:
        """Makes the merge of an order to stage again, head by head."""
        merged, parents, tree = stage.base, ["-p", stage.base], ""
        for change, head in stage.heads:
            if tree:
                merged = ask_git(self.mirror, "commit-tree", tree, *parents, "-m", "x").strip()
            found = self.merge(merged, head)
            if found.why:
                return Remade(why=f"change {change} doesn't merge: {found.why}")
            tree = found.tree
            parents += ["-p", head]
        return Remade(tree) if tree else Remade(why="the order names no head")

    def merge(self, commit: str, head: str) -> Remade:
        """The tree of a merge of two commits."""
        common = run_git(self.mirror, "merge-base", commit, head)
        if common.status != 0:
            return Remade(why=common.said or "it has no commit in common with the branch")
        tried = run_git(self.mirror, "merge-tree", "--write-tree", "--name-only", "--no-messages", commit, head, seconds=SECONDS_FOR_MERGE)
        tree, *names = tried.output.splitlines() or [""]
        if tried.status == 0:
            return Remade(tree)
        return Remade(why=f"both change {', '.join(names)}" if names else tried.said or "git says no more")


def full_name(walk: List[Commit], named: str) -> str:
    """The commit of the branch whose name begins so."""
    found = [commit.name for commit in walk if commit.name.startswith(named.lower())]
    if len(found) != 1:
        raise Trouble(f"{named} is {'no commit' if not found else 'the beginning of several commits'} of the branch, by first parents")
    return found[0]


def head_of(repository: Path) -> Optional[str]:
    """The branch that HEAD names."""
    _, name = pointed_to(repository, "HEAD")
    return name[len(BRANCHES):] if name.startswith(BRANCHES) else None
