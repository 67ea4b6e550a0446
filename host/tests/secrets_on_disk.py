"""A search for secrets through all that lies in a folder: files as they are, databases and objects of git as they read."""
import base64
import contextlib
import sqlite3
import subprocess
from pathlib import Path
from typing import Iterator, NamedTuple, Optional, Tuple

SECONDS = 120


class Secret(NamedTuple):
    """A secret, by what it is told of, and the file that has it, if one may."""

    name: str
    text: str
    own: Optional[Path] = None


def forms_of(secret: Secret) -> Tuple[bytes, ...]:
    """A secret as it is, and as base64 has it, whatever stands before and after it there."""
    text = secret.text.encode()
    found = [text]
    for before in range(3):
        # What of it shares a digit with what stands around it says nothing.
        whole = base64.b64encode(b"\0" * before + text)
        found.append(whole[-(-before * 4 // 3):len(whole) - 4])
    return tuple(found)


def contents_in(folder: Path) -> Iterator[Tuple[Path, bytes]]:
    """All that can be read below a folder, each with the file or folder of which it is."""
    for path in sorted(folder.rglob("*")):
        if path.is_symlink():
            continue
        if path.is_file():
            content = path.read_bytes()
            yield path, content
            if content.startswith(b"SQLite format 3\0"):
                yield path, rows_of(path)
        elif (path / "objects").is_dir() and (path / "HEAD").is_file():
            yield path, objects_of(path)


def rows_of(path: Path) -> bytes:
    """All rows of a database: a long one may be torn apart in the file. It is read in memory, so that nothing is written beside it."""
    with contextlib.closing(sqlite3.connect(f"file:{path}?mode=ro", uri=True, timeout=20)) as database:
        return "\n".join(database.iterdump()).encode()


def objects_of(path: Path) -> bytes:
    """All objects of a repository, which lie there compressed."""
    ran = subprocess.run(
        ["git", "--git-dir", str(path), "cat-file", "--batch-all-objects", "--batch", "--unordered"], capture_output=True,
        timeout=SECONDS, check=True,
    )
    return ran.stdout


def found_in(folder: Path, secrets: list) -> list:
    """Each secret that is where it shouldn't be, with the place."""
    forms = [(secret, forms_of(secret)) for secret in secrets]
    return sorted({
        (secret.name, str(path.relative_to(folder))) for path, content in contents_in(folder) for secret, them in forms
        if path != secret.own and any(form in content for form in them)
    })
