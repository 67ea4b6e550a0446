"""Git as the host runs it: in folders that it made itself, with settings that it wrote itself, and with no others.

Git reads more than the objects that are named: settings, which can name commands; attributes, which can name filters; replace objects and
grafts, which put one object in the place of another. Whoever can write or push to the guarded repository can put such things there. So
the host never runs git in it. It has two folders of its own:

- The mirror has the host's own copy of all objects that it works on. Git computes the name of each object anew when it comes there.
- The window has the host's settings, and the branches and objects of the guarded repository by symbolic links. Through it git tells where
  branches are, gives objects to the mirror, takes them from there, and moves branches.
"""
import os
import signal
import subprocess
from contextlib import suppress
from dataclasses import dataclass
from pathlib import Path
from typing import Dict, List, Optional, Sequence

from .faults import Unable

SECONDS = 60

# What git is never to find: settings of the system and of the user, replace objects, attributes of the system, objects elsewhere.
ALONE = {
    "GIT_CONFIG_NOSYSTEM": "1", "GIT_CONFIG_GLOBAL": "/dev/null", "GIT_ATTR_NOSYSTEM": "1", "GIT_NO_REPLACE_OBJECTS": "1",
    "GIT_NO_LAZY_FETCH": "1", "GIT_TERMINAL_PROMPT": "0", "LC_ALL": "C.UTF-8",
}
# No hook is called for what the host does, and what git makes is on the disk when a command ends. No index beside the objects is read,
# since nothing computes its contents anew. Packs are kept as they come, so that no folder is made in a repository that others write.
SETTINGS = """\
[core]
    repositoryformatversion = 0
    bare = true
    fsync = all
    hooksPath = /dev/null
    attributesFile = /dev/null
    useReplaceRefs = false
    commitGraph = false
    multiPackIndex = false
    alternateRefsCommand = true
    logAllRefUpdates = {logs}
    sharedRepository = {shared}
[user]
    name = gate
    email = gate@localhost
[gc]
    auto = 0
[maintenance]
    auto = false
[pack]
    useBitmaps = false
[receive]
    unpackLimit = 1
    autogc = false
[uploadpack]
    allowAnySHA1InWant = true
"""


class GitFailed(Unable):
    """A command of git that ended in a way that says nothing of the question, with its words."""


@dataclass(frozen=True)
class Ran:
    """The status of a command that has ended, what it wrote, and what it said besides."""

    status: int
    output: str
    said: str


def clean_environment() -> Dict[str, str]:
    """The environment without anything that git reads."""
    return {name: value for name, value in os.environ.items() if not name.startswith("GIT_")}


def words_of(said: bytes) -> str:
    """What git said, on one line."""
    return " ".join(said.decode(errors="replace").split())


# Files that each git of the host, and all that it starts, keep open. By the locks on them a later host knows that one still runs.
HELD: List[int] = []


def run_git(
    folder: Optional[Path], *arguments: str, seconds: float = SECONDS, more: Optional[Dict[str, str]] = None, given: bytes = b"",
    held: Sequence[int] = (),
) -> Ran:
    """Runs git in a folder of its own kind, or in none. Whatever it has started is killed with it when the time is over. It and all that
    it starts keep the files `held` open."""
    environment = {**clean_environment(), **ALONE, **({"GIT_DIR": str(folder)} if folder else {}), **(more or {})}
    with subprocess.Popen(
        ["git", *arguments], env=environment, cwd="/", stdin=subprocess.PIPE, stdout=subprocess.PIPE, stderr=subprocess.PIPE,
        start_new_session=True, pass_fds=[*HELD, *held],
    ) as process:
        try:
            output, said = process.communicate(given, timeout=seconds)
        except subprocess.TimeoutExpired:
            with suppress(ProcessLookupError):
                os.killpg(process.pid, signal.SIGKILL)
            raise GitFailed(f"git {arguments[0]} took more than {seconds:g} seconds") from None
    if process.returncode < 0 or process.returncode > 128:
        raise GitFailed(f"git {arguments[0]} ended with status {process.returncode}: {words_of(said)}")
    return Ran(process.returncode, output.decode(errors="replace"), words_of(said))


def ask_git(
    folder: Optional[Path], *arguments: str, seconds: float = SECONDS, more: Optional[Dict[str, str]] = None, given: bytes = b"",
) -> str:
    """What git writes. Any status but 0 is a failure."""
    ran = run_git(folder, *arguments, seconds=seconds, more=more, given=given)
    if ran.status != 0:
        raise GitFailed(f"git {arguments[0]} ended with status {ran.status}: {ran.said}")
    return ran.output


def make_folder(folder: Path, logs: str = "false", shared: str = "false") -> None:
    """Makes a folder of git's kind without branches, or writes the settings of one that is there anew. Its HEAD names no branch."""
    folder.mkdir(mode=0o700, exist_ok=True)
    for name, text in (("HEAD", "ref: refs/heads/none\n"), ("config", SETTINGS.format(logs=logs, shared=shared))):
        part = folder / f".{name}"
        part.write_text(text, encoding="utf-8")
        os.replace(part, folder / name)


def make_mirror(folder: Path) -> None:
    """Makes the mirror, or finds it."""
    make_folder(folder)
    for name in ("objects/pack", "objects/info", "refs/heads"):
        (folder / name).mkdir(parents=True, exist_ok=True)


def make_window(folder: Path, repository: Path, logs: str, shared: str, is_shared: bool) -> None:
    """Makes the window to a repository, or finds it. If the repository has moved, the window follows. If others may write the repository,
    the moves of branches aren't logged there: git would write through whatever links stand among the logs."""
    make_folder(folder, "false" if is_shared else logs, shared)
    if logs != "false" and not is_shared:
        (repository / "logs").mkdir(exist_ok=True)
    for name in ("refs", "objects", "packed-refs", "logs"):
        link = folder / name
        if name == "logs" and is_shared:
            link.unlink(missing_ok=True)
        elif not link.is_symlink() or os.readlink(link) != str(repository / name):
            link.unlink(missing_ok=True)
            link.symlink_to(repository / name)


def settings_in_file(path: Path) -> Dict[str, str]:
    """The settings that stand in a file of git's, and in those that it includes: as texts, of which none is obeyed."""
    if not path.is_file():
        return {}
    ran = run_git(None, "config", "--file", str(path), "--includes", "--list", "--null")
    if ran.status != 0:
        raise GitFailed(f"{path} can't be read: {ran.said}")
    found = {}
    for entry in filter(None, ran.output.split("\0")):
        name, _, value = entry.partition("\n")
        found[name] = value
    return found
