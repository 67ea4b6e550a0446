"""The repository: where its branches are, what a commit has, merges for the bot, and the moves of branches."""
import fcntl
from dataclasses import dataclass
from pathlib import Path
from typing import Callable, Dict, Iterable, Mapping, Optional, Sequence

from .core.orders import Land, Stage
from .git import SECONDS, GitFailed, Ran, ask_git, make_mirror, make_window, run_git, settings_in_file
from .places import Places

SECONDS_FOR_MERGE = 600
SECONDS_FOR_OBJECTS = 3600
# Each fetch leaves objects in the mirror, a few by themselves, many in a pack. So many make reading slow.
MOST_LOOSE = 5000
MOST_PACKS = 50
BRANCHES = "refs/heads/"
# What files take on a disk are whole blocks of so many bytes.
BLOCK = 4096
# Under these names the mirror keeps what it has fetched, and the guarded repository what stood on a branch that the host took.
FETCHED = "refs/gate/"
KEPT = "refs/gate/kept/"


@dataclass(frozen=True)
class Merged:
    """What came of an order to stage: a commit, or which change doesn't merge, and why."""

    commit: Optional[str] = None
    conflicting: int = 0
    why: str = ""


@dataclass(frozen=True)
class Branch:
    """A branch: its commit, and the name of the branch that it only is another name of, if it is one."""

    commit: str
    of: str


class Repository:
    """A guarded bare repository and its main branch, with the host's mirror of it."""

    def __init__(self, places: Places, main: str, staging: str = "staging", trying: str = "trying"):
        self.places = places
        self.main = BRANCHES + main
        # The branches on which the host stages, by the names that the bot has for them.
        self.staged_on = {"staging": BRANCHES + staging, "trying": BRANCHES + trying}
        self.mirror, self.window = places.mirror, places.window
        make_mirror(self.mirror)
        # From where commits come, and where branches are moved.
        self.remote = self.found()

    def found(self) -> str:
        """Finds the guarded repository, and gives by what git reaches it."""
        settings = settings_in_file(self.places.repository / "config")
        make_window(self.window, self.places.repository, logs_of(settings), shared_by(settings), self.places.is_shared())
        return str(self.window)

    def credentials(self) -> Dict[str, str]:
        """What the environment of git has besides, so that it reaches the guarded repository."""
        return {}

    def ask(
        self, *arguments: str, seconds: float = SECONDS, more: Optional[Dict[str, str]] = None, given: bytes = b"",
    ) -> str:
        """What git writes of the mirror."""
        return ask_git(self.mirror, *arguments, seconds=seconds, more=more, given=given)

    # Branches of the guarded repository

    def all_branches(self) -> Dict[str, Branch]:
        """Each branch, all of one moment as nearly as git can tell."""
        written = ask_git(self.window, "for-each-ref", "--format=%(objectname) %(symref) %(refname)", BRANCHES)
        found = {}
        for line in filter(None, written.split("\n")):
            commit, of, name = line.split(" ", 2)
            found[name] = Branch(commit, of)
        return found

    def branches(self) -> Dict[str, str]:
        """The commit of each branch."""
        return {name: branch.commit for name, branch in self.all_branches().items()}

    def fetch(self, heads: Mapping[str, str]) -> Dict[str, str]:
        """Brings commits with all that belongs to them into the mirror, each under a name. What can't come is given with the reason, by
        its name. Git computes the name of each object anew, so what comes is what was named."""
        there = self.all_fetched() if len(heads) > 1 else None
        wanted = {name: commit for name, commit in heads.items() if not self.has_fetched(name, commit, there)}
        if not wanted or self.fetched(wanted).status == 0:
            return {}
        failed = {name: self.fetched({name: commit}) for name, commit in wanted.items()}
        return {name: ran.said or "git says no more" for name, ran in failed.items() if ran.status != 0}

    def fetched(self, heads: Mapping[str, str]) -> Ran:
        places = "".join(f"+{commit}:{FETCHED}{name}\n" for name, commit in heads.items())
        return run_git(
            self.mirror, "fetch", "--quiet", "--no-tags", "--no-write-fetch-head", "--stdin", self.remote, given=places.encode(),
            seconds=SECONDS_FOR_OBJECTS, more=self.credentials(),
        )

    def all_fetched(self) -> Dict[str, str]:
        """What the mirror has fetched, by the names."""
        lines = self.ask("for-each-ref", "--format=%(refname) %(objectname)", FETCHED).splitlines()
        return dict(line[len(FETCHED):].split(" ") for line in lines)

    def has_fetched(self, name: str, commit: str, there: Optional[Mapping[str, str]] = None) -> bool:
        """Whether the mirror has this commit under this name, and so all that belongs to it."""
        if there is not None:
            return there.get(name) == commit
        return run_git(self.mirror, "rev-parse", "--verify", "--quiet", FETCHED + name).output.strip() == commit

    def forget(self, names: Iterable[str]) -> None:
        """Drops names in the mirror. The objects stay."""
        lines = "".join(f"delete {FETCHED}{name}\n" for name in names)
        if lines:
            self.ask("update-ref", "--stdin", given=lines.encode())

    def keep(self, name: str, commit: str) -> None:
        """Keeps a commit of the mirror under a name."""
        self.ask("update-ref", FETCHED + name, commit)

    def must_have(self, name: str, commit: str) -> None:
        """Has a commit in the mirror. One that can't come is no conflict."""
        for why in self.fetch({name: commit}).values():
            raise GitFailed(f"{commit} can't be read whole in the repository: {why}")

    def remove_locks(self) -> None:
        """Removes what a git that has died has left in the mirror. Only for a host that knows that none runs."""
        for path in [*self.mirror.glob("*.lock"), *self.mirror.glob("refs/**/*.lock")]:
            path.unlink(missing_ok=True)

    def tidy(self, is_needed: Callable[[str], bool]) -> None:
        """Drops the names in the mirror that aren't needed any more. Puts its objects together if many lie there by themselves. None is
        thrown away."""
        self.forget(name for name in self.all_fetched() if not is_needed(name))
        counted = dict(line.split(": ") for line in self.ask("count-objects", "-v").splitlines())
        if int(counted["count"]) > MOST_LOOSE or int(counted["packs"]) > MOST_PACKS:
            self.ask("repack", "-a", "-d", "--keep-unreachable", "--quiet", seconds=SECONDS_FOR_OBJECTS)

    # What commits have

    def text_at(self, commit: str, name: str, most: int) -> Optional[str]:
        """The text of a file of a commit of the mirror, or none if it has no such file, or one with more bytes."""
        found = self.ask("ls-tree", "--long", commit, "--", name).split()
        if found[1:2] != ["blob"] or int(found[3]) > most:
            return None
        return self.ask("cat-file", "blob", found[2])

    # Merges

    def merge_batch(self, stage: Stage, now: int, message: Callable[[Mapping[int, str]], str]) -> Merged:
        """Makes one commit, whose parents are the base and the heads, with a message that may have the titles of the changes. If it is done
        again, it is the same commit."""
        base, commit, parents, titles = stage.base, stage.base, ["-p", stage.base], {}
        dates = {"GIT_AUTHOR_DATE": f"@{now} +0000", "GIT_COMMITTER_DATE": f"@{now} +0000"}
        self.must_have("main", base)
        for change, head in stage.heads:
            self.must_have(f"change/{change}", head)
            found = self.merge(commit, head)
            if found.commit is None:
                return Merged(conflicting=change, why=found.why)
            parents += ["-p", head]
            titles[change] = self.title_of(base, head)
            # With the last head it is the commit of the batch. Those before are for the next merge alone.
            commit = self.ask("commit-tree", found.commit, *parents, "-F", "-", more=dates, given=message(titles).encode()).strip()
        if commit == base:
            raise ValueError("a batch has a change")
        return Merged(commit=commit)

    def title_of(self, base: str, head: str) -> str:
        """What a change is about: the first line of its first commit, or of its head if the base has all of it."""
        first = self.ask("rev-list", "--reverse", "--topo-order", head, f"^{base}").split()[:1]
        return self.ask("log", "-1", "--no-show-signature", "--format=%s", first[0] if first else head).rstrip("\n")

    def merge(self, commit: str, head: str) -> Merged:
        """The tree of a merge, without a checkout, or why there is none."""
        common = run_git(self.mirror, "merge-base", commit, head)
        if common.status == 1:
            return Merged(why="it has no commit in common with the main branch")
        if common.status != 0:
            raise GitFailed(f"git merge-base: {common.said}")
        tried = run_git(self.mirror, "merge-tree", "--write-tree", "--name-only", "--no-messages", commit, head, seconds=SECONDS_FOR_MERGE)
        if tried.status not in (0, 1):
            raise GitFailed(f"git merge-tree: {tried.said}")
        tree, *names = tried.output.splitlines()
        return Merged(commit=tree) if tried.status == 0 else Merged(why="both change " + ", ".join(names))

    # Moves of branches

    def push(self, commit: str, branch: str, before: Optional[str], held: Sequence[int] = ()) -> Ran:
        """Moves a branch of the guarded repository to a commit of the mirror, if it is at exactly the commit before, or isn't there. A `+`
        before the commit would have git move it in any case."""
        lease = f"--force-with-lease={branch}:{before or ''}"
        return run_git(
            self.mirror, "push", "--quiet", "--porcelain", lease, self.remote, f"{commit}:{branch}", held=held,
            seconds=SECONDS_FOR_OBJECTS, more=self.credentials(),
        )

    def stage(self, name: str, commit: str, before: Optional[str], is_own: bool) -> Optional[str]:
        """Moves a branch on which the host stages, if it is where it was before. What stands there and isn't the host's own is kept under
        another name, which is given."""
        branch = self.staged_on[name]
        self.must_be_one(branch)
        self.keep(f"staged/{name}", commit)
        kept = None
        if before and before != commit and not is_own:
            kept = self.keep_others(name, before)
        if before != commit:
            ran = self.push(commit, branch, before)
            if ran.status != 0:
                raise GitFailed(f"{branch} can't be moved: {reason_in(ran)}")
        return kept

    def keep_others(self, name: str, commit: str) -> str:
        """Keeps what somebody else has put on a branch of the host, and gives under which name."""
        kept = f"{KEPT}{name}/{commit}"
        ask_git(self.window, "update-ref", kept, commit)
        return kept

    def drop_branch(self, branch: str, at: str) -> None:
        """Takes a branch of the guarded repository away, if it is at exactly this commit."""
        lease = f"--force-with-lease={branch}:{at}"
        ran = run_git(self.mirror, "push", "--quiet", "--porcelain", lease, self.remote, f":{branch}", more=self.credentials())
        if ran.status != 0:
            raise GitFailed(f"{branch} can't be deleted: {reason_in(ran)}")

    def must_be_one(self, branch: str) -> None:
        """A branch that is another name of one isn't moved: that would move the other one."""
        found = self.all_branches().get(branch)
        if found and found.of:
            raise GitFailed(f"{branch} is another name of {found.of}")

    def land(self, order: Land) -> bool:
        """Moves the main branch if it is at exactly the base. True if the commit is on it then, as it may be since before; and false only
        if it never comes there by this order: no git of ours runs, and the branch is at neither of the two.

        What git of ours runs holds a lock, also that of a host that has died."""
        with open(self.places.records / "landing.lock", "wb") as lock:
            try:
                fcntl.flock(lock, fcntl.LOCK_EX | fcntl.LOCK_NB)
            except OSError:
                raise GitFailed(f"a git that was started before may still move {self.main}; it has {lock.name} open") from None
            self.must_be_one(self.main)
            ran = self.push(order.commit, self.main, order.base, [lock.fileno()])
        now = self.branches().get(self.main)
        if now == order.commit:
            return True
        if now == order.base:
            raise GitFailed(f"{self.main} can't be moved: {reason_in(ran)}")
        if now is None:
            return False
        self.must_have("main", now)
        if run_git(self.mirror, "cat-file", "-e", order.commit).status != 0:
            # All that belongs to the branch is here, and the commit isn't.
            return False
        looked = run_git(self.mirror, "merge-base", "--is-ancestor", order.commit, now)
        if looked.status not in (0, 1):
            raise GitFailed(f"git merge-base: {looked.said}")
        return looked.status == 0

    # What others get

    def commit_with(self, name: str, text: str, before: Optional[str]) -> str:
        """Makes a commit that adds a file to another one, or that is a first one, and gives it."""
        if before:
            self.must_have("main", before)
        index = {"GIT_INDEX_FILE": str(self.mirror / "index")}
        blob = self.ask("hash-object", "-w", "--stdin", given=text.encode()).strip()
        self.ask("read-tree", *([before] if before else ["--empty"]), more=index)
        self.ask("update-index", "--add", "--cacheinfo", f"100644,{blob},{name}", more=index)
        tree = self.ask("write-tree", more=index).strip()
        return self.ask("commit-tree", tree, *(["-p", before] if before else []), "-m", f"Add {name}").strip()

    def move_main(self, commit: str, before: Optional[str]) -> None:
        """Moves the main branch past the queue, if it is where it was before."""
        ran = self.push(commit, self.main, before)
        if ran.status != 0:
            raise GitFailed(f"{self.main} can't be moved: {reason_in(ran)}")

    def rename(self, branch: str, to: str) -> None:
        """Gives a branch of the guarded repository another name."""
        commit = self.branches()[branch]
        lines = f"create {to} {commit}\ndelete {branch} {commit}\n"
        ask_git(self.window, "update-ref", "--stdin", given=lines.encode())

    def check_out(self, commit: str, path: Path, seconds: float) -> Optional[str]:
        """Makes a clone of its own for one commit, without branches. It reads the objects of the mirror, and git never writes to those.
        Gives why the commit can't be checked out, if it can't."""
        ask_git(None, "init", "--quiet", "--template=", str(path))
        (path / ".git/objects/info").mkdir(exist_ok=True)
        (path / ".git/objects/info/alternates").write_text(f"{self.mirror}/objects\n", encoding="utf-8")
        work = {"GIT_WORK_TREE": str(path)}
        ran = run_git(path / ".git", "checkout", "--quiet", "--detach", commit, more=work, seconds=seconds)
        return None if ran.status == 0 else ran.said or "git says no more"

    def room_for(self, commit: str) -> int:
        """How many bytes the files of a commit take on a disk, about and at the most: each takes whole blocks, and one for its name. It is
        0 if that can't be told."""
        ran = run_git(self.mirror, "ls-tree", "-r", "-z", "--format=%(objectsize)", commit)
        sizes = ran.output.split("\0") if ran.status == 0 else []
        return sum((int(size) // BLOCK + 2) * BLOCK for size in sizes if size.isdigit())


def logs_of(settings: Mapping[str, str]) -> str:
    """Whether the moves of branches are logged in the guarded repository, as its own setting says."""
    value = settings.get("core.logallrefupdates", "false").lower()
    return value if value in ("true", "always") else "false"


def shared_by(settings: Mapping[str, str]) -> str:
    """Who may write the files of the guarded repository, as its own setting says."""
    value = settings.get("core.sharedrepository", "false").lower()
    is_mode = len(value) == 4 and value.startswith("0") and value.isdigit()
    return value if is_mode or value in ("true", "group", "all", "world", "everybody", "1", "2") else "false"


def reason_in(ran: Ran) -> str:
    """Why a push moved nothing: what git said, or the line about the branch."""
    lines = [line for line in ran.output.split("\n") if line.startswith("!")]
    return "; ".join(filter(None, [ran.said, *(" ".join(line.split()) for line in lines)])) or f"git ended with status {ran.status}"
