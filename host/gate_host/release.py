"""Which version of the host this is, of which commit, and where the program of the bot stands: in a package, or in a checkout."""
import hashlib
import re
import shlex
import shutil
from pathlib import Path
from typing import Dict, Optional

from . import VERSION
from .faults import Trouble
from .hook_file import SCRIPT
from .places import COMMIT, asked_of_git

# A package has this file beside the host and the program. It tells what was proved.
PROVED = SCRIPT.with_name("PROVED")
CHECKOUT = SCRIPT.parent.parent
LINE = re.compile(r"([a-z]+): (.+)")
SUM = re.compile(r"sha256 ([0-9a-f]{64})")


def usual_program(proved: Path, checkout: Path) -> Path:
    """The program that is meant if none is named: that of the package, or the one that is built in the checkout."""
    return proved.with_name("gate") if proved.is_file() else checkout / "crates/gate_bot/out/gate_bot"


PROGRAM = usual_program(PROVED, CHECKOUT)


def command_of(script: Path = SCRIPT) -> str:
    """How people call this host: by its name, if the PATH leads to it, or else by its path."""
    found = shutil.which("gate-host")
    return "gate-host" if found and Path(found).resolve() == script.resolve() else shlex.quote(str(script))


def told_in(text: str) -> Dict[str, str]:
    """What the text of a file PROVED tells: the lines with a key and a value, of which the first ones count."""
    told: Dict[str, str] = {}
    for line in text.split("\n"):
        found = LINE.fullmatch(line)
        if found:
            told.setdefault(found[1], found[2])
    return told


def release_in(text: str) -> str:
    """The version and the commit of a package, as its file PROVED tells them."""
    told = told_in(text)
    if not COMMIT.fullmatch(told.get("commit", "")) or told.get("version") != VERSION:
        raise Trouble(f"PROVED isn't that of gate-host {VERSION}; install the package again")
    tree = told.get("tree", "of a tree that isn't told")
    return f"gate-host {VERSION}, of commit {told['commit']}" + ("" if tree == "clean" else f" {tree}")


def sum_in(text: str) -> str:
    """The sum of the program of a package, as its file PROVED tells it."""
    found = SUM.fullmatch(told_in(text).get("program", ""))
    if not found:
        raise Trouble("PROVED tells no sum of the program; install the package again")
    return found[1]


def text_of_proved(proved: Path = PROVED) -> Optional[str]:
    """The text of the file PROVED, or none if this host wasn't installed by a package."""
    try:
        return proved.read_text(encoding="utf-8") if proved.is_file() else None
    except (OSError, UnicodeDecodeError) as fault:
        raise Trouble(f"{proved} can't be read: {fault}") from fault


def commit_of_checkout(checkout: Path = CHECKOUT) -> Optional[str]:
    """The commit of the checkout in which this host stands, or none. A repository around something else says nothing of it."""
    is_checkout = (checkout / ".git").exists() and (checkout / "crates.txt").is_file()
    found = asked_of_git(checkout, "rev-parse", "--verify", "--quiet", "HEAD") if is_checkout else None
    return found if found and COMMIT.fullmatch(found) else None


def sum_of(path: Path) -> str:
    """The SHA-256 of a file."""
    total = hashlib.sha256()
    with open(path, "rb") as file:
        for part in iter(lambda: file.read(1 << 20), b""):
            total.update(part)
    return total.hexdigest()
