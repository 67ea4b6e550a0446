"""A bare git repository: commits that are made in it without a clone, its refs, and what git says of commits."""
import os
import subprocess
import tempfile
from dataclasses import dataclass
from pathlib import Path
from typing import Any, Callable, Optional

NONE = "0" * 40
SECONDS = 60
# No settings of git but those of the repository.
ENVIRONMENT = {
    "PATH": os.environ.get("PATH", "/usr/bin:/bin"), "HOME": "/nonexistent", "LC_ALL": "C.UTF-8", "GIT_CONFIG_NOSYSTEM": "1",
    "GIT_CONFIG_GLOBAL": "/dev/null",
}
# As GitHub has it: nobody pushes to the refs of pull requests, and each commit may be asked for by its name.
SETTINGS = """\
[http]
    receivepack = true
[receive]
    hideRefs = refs/pull
[uploadpack]
    allowAnySHA1InWant = true
    allowFilter = true
[gc]
    auto = 0
"""
# Refuses what the lines of PUSH_RULES forbid who pushes, each ref by itself. A line has a code, a kind of move, the refs that it is
# about, and the words for it.
UPDATE = """\
#!/bin/sh
ref=$1 old=$2 new=$3 none=0000000000000000000000000000000000000000
printf '%s\\n' "$PUSH_RULES" | while read -r code kind pattern words; do
    case $ref in $pattern) ;; *) continue ;; esac
    case $kind in
    creation) [ "$old" = $none ] || continue ;;
    deletion) [ "$new" = $none ] || continue ;;
    update) ;;
    checks)
        [ "$new" != $none ] || continue
        # The first word has the commits on which all checks succeeded.
        case ,${words%% *}, in *,"$new",*) continue ;; esac
        words=${words#* } ;;
    non_fast_forward)
        [ "$old" != $none ] && [ "$new" != $none ] || continue
        ! git merge-base --is-ancestor "$old" "$new" || continue ;;
    *) continue ;;
    esac
    case $code in
    GH013) echo "error: GH013: Repository rule violations found for $ref." ; echo ; echo "- $words" ;;
    *) echo "error: $code: Protected branch update failed for $ref." ; echo "error: $words" ;;
    esac >&2
    exit 1
done
"""


class GitFailed(Exception):
    """A command of git ends as it shouldn't."""


@dataclass(frozen=True)
class Person:
    """Who has written or made a commit, and when."""

    name: str
    email: str
    date: str
    zone: str


@dataclass(frozen=True)
class Commit:
    sha: str
    tree: str
    parents: tuple
    author: Person
    committer: Person
    message: str


def person_of(line: str) -> Person:
    name, _, rest = line.partition(" <")
    email, _, when = rest.rpartition("> ")
    seconds, zone = when.split(" ")
    return Person(name, email, seconds, zone)


class Bare:
    """A bare repository on the disk."""

    def __init__(self, path: Path) -> None:
        self.path = path
        # What git has said of commits, each by its whole name, which never changes.
        self.said: dict = {}

    def once(self, key: tuple, ask: Callable[[], Any]) -> Any:
        if key not in self.said:
            self.said[key] = ask()
        return self.said[key]

    @classmethod
    def make(cls, path: Path, branch: str) -> "Bare":
        path.parent.mkdir(parents=True, exist_ok=True)
        subprocess.run(
            ["git", "init", "--quiet", "--bare", "--template=", f"--initial-branch={branch}", str(path)], env=ENVIRONMENT, check=True,
            timeout=SECONDS, capture_output=True,
        )
        made = cls(path)
        with open(path / "config", "a", encoding="utf-8") as config:
            config.write(SETTINGS)
        hook = path / "hooks/update"
        hook.parent.mkdir(exist_ok=True)
        hook.write_text(UPDATE, encoding="utf-8")
        hook.chmod(0o755)
        return made

    def run(self, *words: str, given: str = "", more: Optional[dict] = None) -> subprocess.CompletedProcess:
        return subprocess.run(
            ["git", "--git-dir", str(self.path), *words], input=given, env={**ENVIRONMENT, **(more or {})}, capture_output=True,
            encoding="utf-8", errors="surrogateescape", timeout=SECONDS, check=False,
        )

    def git(self, *words: str, given: str = "", more: Optional[dict] = None) -> str:
        ran = self.run(*words, given=given, more=more)
        if ran.returncode != 0:
            raise GitFailed(f"git {' '.join(words)} ends with {ran.returncode}: {ran.stderr}")
        return ran.stdout

    # Refs

    def refs(self) -> dict:
        """All refs with their objects."""
        lines = self.git("for-each-ref", "--format=%(refname) %(objectname)").splitlines()
        return dict(line.split(" ") for line in lines)

    def sha(self, name: str) -> Optional[str]:
        """The commit of a name, as a branch or a part of the name of a commit."""
        ran = self.run("rev-parse", "--verify", "--quiet", "--end-of-options", f"{name}^{{commit}}")
        return ran.stdout.strip() if ran.returncode == 0 else None

    def point(self, ref: str, new: Optional[str]) -> None:
        if new is None:
            self.git("update-ref", "-d", ref)
        else:
            self.git("update-ref", ref, new)

    def take(self, other: "Bare", sha: str) -> None:
        """Gets a commit out of another repository, with all before it."""
        if other.path != self.path and self.sha(sha) is None:
            self.git("fetch", "--quiet", "--no-tags", "--no-write-fetch-head", str(other.path), sha)

    # Commits

    def commit(self, files: dict, message: str, who: tuple, parents: tuple = (), date: Optional[int] = None) -> str:
        """Makes a commit that has the files of its first parent, with these instead. A file that is none is taken away."""
        name, email = who
        lines = []
        for path, text in files.items():
            blob = NONE if text is None else self.git("hash-object", "-w", "--stdin", given=text).strip()
            lines.append(f"{'0' if text is None else '100644'} {blob}\t{path}\n")
        with tempfile.TemporaryDirectory() as room:
            index = {"GIT_INDEX_FILE": f"{room}/index"}
            self.git("read-tree", *(parents[:1] or ["--empty"]), more=index)
            self.git("update-index", "--index-info", given="".join(lines), more=index)
            tree = self.git("write-tree", more=index).strip()
        people = {"GIT_AUTHOR_NAME": name, "GIT_AUTHOR_EMAIL": email, "GIT_COMMITTER_NAME": name, "GIT_COMMITTER_EMAIL": email}
        if date is not None:
            people.update(GIT_AUTHOR_DATE=f"{date} +0000", GIT_COMMITTER_DATE=f"{date} +0000")
        before = [word for parent in parents for word in ("-p", parent)]
        return self.git("commit-tree", tree, *before, given=message, more=people).strip()

    def read(self, sha: str) -> Commit:
        return self.once(("read", sha), lambda: self.read_anew(sha))

    def read_anew(self, sha: str) -> Commit:
        head, _, message = self.git("cat-file", "commit", sha).partition("\n\n")
        fields: dict = {"parent": []}
        for line in head.splitlines():
            key, _, value = line.partition(" ")
            if key == "parent":
                fields["parent"].append(value)
            elif key:
                fields.setdefault(key, value)
        author, committer = person_of(fields["author"]), person_of(fields["committer"])
        return Commit(sha, fields["tree"], tuple(fields["parent"]), author, committer, message)

    def is_ancestor(self, before: str, after: str) -> bool:
        """Whether a commit, by its name, is another one or before it."""
        key = ("before", before, after)
        if before == after or key in self.said:
            return before == after or self.said[key]
        status = self.run("merge-base", "--is-ancestor", before, after).returncode
        if status in (0, 1):
            # Of commits that aren't there yet nothing is known.
            self.said[key] = status == 0
        return status == 0

    def between(self, before: Optional[str], after: str, *words: str) -> list:
        """The commits up to `after` that aren't before, the oldest first."""
        asked = ("rev-list", "--reverse", *words, after, *([f"^{before}"] if before else []))
        return self.once(asked, lambda: self.git(*asked).split())

    def changed(self, sha: str) -> dict:
        """The files that a commit changes against its first parent, each with A, D or M and the numbers of lines that come and go."""
        return self.once(("changed", sha), lambda: self.changed_anew(sha))

    def changed_anew(self, sha: str) -> dict:
        words = ("--raw", "--numstat", "--root", "--no-commit-id", "-r", "-m", "--first-parent", "--no-renames", sha)
        kinds, found = {}, {}
        for line in self.git("diff-tree", *words).splitlines():
            if line.startswith(":"):
                told, path = line.split("\t", 1)
                kinds[path] = told[-1]
            else:
                come, go, path = line.split("\t", 2)
                found[path] = (kinds.get(path, "M"), int(come) if come != "-" else 0, int(go) if go != "-" else 0)
        return found

    def merge(self, base: str, head: str, who: tuple) -> Optional[str]:
        """A commit that merges two others, or none if they conflict. No ref has it."""
        return self.once(("merge", base, head, who), lambda: self.merge_anew(base, head, who))

    def merge_anew(self, base: str, head: str, who: tuple) -> Optional[str]:
        ran = self.run("merge-tree", "--write-tree", base, head)
        if ran.returncode != 0:
            return None
        name, email = who
        people = {"GIT_AUTHOR_NAME": name, "GIT_AUTHOR_EMAIL": email, "GIT_COMMITTER_NAME": name, "GIT_COMMITTER_EMAIL": email}
        message = f"Merge {head} into {base}"
        return self.git("commit-tree", ran.stdout.split()[0], "-p", base, "-p", head, given=message, more=people).strip()
