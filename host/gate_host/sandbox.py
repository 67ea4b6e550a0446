"""The sandbox in which a check runs: bubblewrap's. Without it a check can do what the owner of the repository can."""
import os
import shutil
import stat
import subprocess
import time
from contextlib import suppress
from dataclasses import dataclass
from functools import lru_cache
from pathlib import Path
from typing import Dict, List, Mapping, Tuple

from .faults import Trouble
from .places import Places
from .settings import Settings

# What of the system a check sees. It can't write there.
OF_SYSTEM = ("/usr", "/bin", "/sbin", "/lib", "/lib32", "/lib64", "/libx32", "/etc", "/opt", "/nix")
# What of its environment the host hands on.
KEPT = ("PATH", "LANG", "LANGUAGE", "TZ", "TERM", "USER", "LOGNAME")
KEPT_BEGINNINGS = ("LC_", "GATE_", "GIT_NO_REPLACE_OBJECTS")
# The files that are hidden, and until when they needn't be looked for again. bubblewrap takes some thousand of them.
HIDDEN: List[Tuple[str, bool]] = []
HIDDEN_UNTIL = [0.0]
SECONDS_OF_HIDDEN = 300
MOST_HIDDEN = 50
# Where the clone stands for a check.
CLONE = "/checkout"


@dataclass(frozen=True)
class Sandbox:
    """How checks run: the words before their command, and a sentence for whoever starts the host."""

    is_on: bool
    said: str


@lru_cache(maxsize=None)
def why_not() -> str:
    """Why no check can run in bubblewrap here, or nothing if one can."""
    if shutil.which("bwrap") is None:
        return "bubblewrap isn't installed"
    try:
        ran = subprocess.run(
            ["bwrap", *UNSHARED, "--ro-bind", "/", "/", "--proc", "/proc", "--dev", "/dev", "true"], stdin=subprocess.DEVNULL,
            capture_output=True, timeout=60, check=False,
        )
    except (OSError, subprocess.TimeoutExpired) as fault:
        return f"bubblewrap can't be run: {fault}"
    return "" if ran.returncode == 0 else f"bubblewrap can't be used: {ran.stderr.decode(errors='replace').strip()}"


# A check sees no process but its own, has no rights of root, and what it has started ends with it.
UNSHARED = ("--unshare-all", "--die-with-parent", "--new-session", "--cap-drop", "ALL")


def sandbox_of(settings: Settings) -> Sandbox:
    """Whether checks run in the sandbox. If it is required and can't be had, that is a trouble."""
    if settings.sandbox == "off":
        return Sandbox(False, "without a sandbox, as the settings say: they can do what the owner of the repository can")
    why = why_not()
    if not why:
        network = "with" if settings.sandbox_network else "without"
        return Sandbox(True, f"in a sandbox, {network} network")
    if settings.sandbox == "required":
        raise Trouble(f"checks have to run in a sandbox, and {why}")
    return Sandbox(False, f"without a sandbox, since {why}: they can do what the owner of the repository can")


def words_before(places: Places, settings: Settings, clone: Path, scratch: Path) -> List[str]:
    """The words that have a command run in the sandbox, in its clone. What is bound later lies over what was bound before."""
    words = ["bwrap", *UNSHARED, *(["--share-net"] if settings.sandbox_network else []), "--dev", "/dev", "--proc", "/proc"]
    # If root runs the host, the check is root for the kernel, and could write its settings.
    for path in ("/proc/sys", "/proc/sysrq-trigger"):
        words += ["--ro-bind-try", path, path]
    for path in (*OF_SYSTEM, *network_files(settings)):
        words += ["--ro-bind-try", path, path]
    for path, is_folder in hidden_files():
        words += ["--tmpfs", path] if is_folder else ["--ro-bind", "/dev/null", path]
    for path in settings.sandbox_reads:
        words += ["--ro-bind-try", path, path]
    for path in settings.sandbox_writes:
        words += ["--bind-try", path, path]
    words += ["--bind", str(scratch), "/tmp"]
    # The guarded repository may stand below one of these.
    objects = str(places.mirror / "objects")
    words += ["--tmpfs", str(places.repository), "--ro-bind", objects, objects, "--remount-ro", str(places.repository)]
    return [*words, "--bind", str(clone), CLONE, "--chdir", CLONE]


def environment_within(environment: Mapping[str, str]) -> Dict[str, str]:
    """What a check in the sandbox gets of the host's environment, which may have secrets of its owner."""
    kept = {name: value for name, value in environment.items() if name in KEPT or name.startswith(KEPT_BEGINNINGS)}
    return {**kept, "HOME": "/tmp"}


def network_files(settings: Settings) -> Tuple[str, ...]:
    """The folder of the file that /etc/resolv.conf names, if the network is given."""
    resolver = Path("/etc/resolv.conf")
    return (str(resolver.resolve().parent),) if settings.sandbox_network and resolver.is_symlink() else ()


def hidden_files() -> List[Tuple[str, bool]]:
    """What of the system not everybody may read, as files of the owner: a check isn't to read it either. Looked for anew after a while."""
    if time.monotonic() > HIDDEN_UNTIL[0]:
        folders = [folder for folder in ("/etc", "/opt", "/usr/local") if os.path.isdir(folder) and not os.path.islink(folder)]
        HIDDEN[:] = [hidden for folder in folders for hidden in unreadable_in(folder, is_needed=True)]
        HIDDEN_UNTIL[0] = time.monotonic() + SECONDS_OF_HIDDEN
    return [(path, is_folder) for path, is_folder in HIDDEN if os.path.lexists(path)]


def look_again() -> None:
    """Has what is hidden be looked for at the next check: something of it may be another thing by now. A bubblewrap that couldn't be used
    is tried again. One that could isn't: checks in the sandbox never come to run without."""
    HIDDEN_UNTIL[0] = 0.0
    if why_not():
        why_not.cache_clear()


def unreadable_in(folder: str, is_needed: bool = False) -> List[Tuple[str, bool]]:
    """The files and folders below a folder that not everybody may read. If many files of the folder are so, it is the folder itself, unless
    checks need that."""
    try:
        entries = sorted(os.scandir(folder), key=lambda entry: entry.name)
    except OSError:
        # Then a check can't read it either.
        return []
    found: List[Tuple[str, bool]] = []
    files = 0
    for entry in entries:
        with suppress(OSError):
            mode = entry.stat(follow_symlinks=False).st_mode
            if stat.S_ISDIR(mode):
                found += unreadable_in(entry.path) if mode & 0o005 == 0o005 else [(entry.path, True)]
            elif stat.S_ISREG(mode) and not mode & 0o004:
                found.append((entry.path, False))
                files += 1
    return found if is_needed or files <= MOST_HIDDEN else [(folder, True)]
