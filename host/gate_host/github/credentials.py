"""By what the host is known to GitHub: a token, or an app with its key. Each secret is the content of a file that nobody else can read."""
import os
import re
import stat
import time
from pathlib import Path
from typing import Callable, Optional, Protocol, Tuple

from ..faults import Trouble, Unable
from ..places import checked_content
from .pauses import pause_after_fault

# A token of an app's installation is renewed so many seconds before its end; and one that is asked for is good for so long at the most.
SECONDS_BEFORE_END = 300
# GitHub takes a word of an app that is at most ten minutes long. Its clock may be behind.
SECONDS_OF_WORD, SECONDS_BACK = 540, 60
WORD = re.compile(r"[!-~]+")


class Credentials(Protocol):
    """What says who asks."""

    def header(self) -> str:
        """The value of the header Authorization."""

    def refused(self) -> None:
        """Notes that GitHub didn't take it. What can be renewed is."""


def secret_in(path: Path) -> str:
    """The secret that a file has. One that others can read, or that isn't the user's, is refused."""
    def wrong(found: os.stat_result) -> Optional[str]:
        if not stat.S_ISREG(found.st_mode) or found.st_uid != os.geteuid():
            return f"{path} has to be a file of yours"
        if found.st_mode & 0o077:
            return f"others can read {path}, which has a secret; chmod 600 it, and take another secret"
        return None

    content = checked_content(path, wrong)
    try:
        secret = content.decode("ascii").strip()
    except UnicodeDecodeError as fault:
        raise Trouble(f"{path} has bytes that no secret of GitHub's has") from fault
    if not secret:
        raise Trouble(f"{path} has no secret")
    return secret


def now_in(path: Path, read: Callable[[Path], str] = secret_in) -> str:
    """The secret that a file has, for a host at work. It waits if the file can't be read."""
    try:
        return read(path)
    except (Trouble, OSError) as fault:
        raise Unable(str(fault)) from fault


def token_in(path: Path) -> str:
    """The token that a file has. What is no word can't be sent, and the library would tell it with the fault."""
    token = secret_in(path)
    if not WORD.fullmatch(token):
        raise Trouble(f"{path} has more than a token: one word has to stand there")
    return token


class TokenInFile:
    """A token of a person, as a fine-grained one. The file is read again if GitHub doesn't take it any more."""

    def __init__(self, path: Path):
        self.path = path
        self.token = token_in(path)

    def header(self) -> str:
        return f"Bearer {self.token}"

    def refused(self) -> None:
        self.token = now_in(self.path, token_in)


class AppWithKey:
    """An app, which gets a token of its installation for an hour at a time."""

    def __init__(self, app: str, key: Path, token_of: Callable[[str], Tuple[str, float]], now: Callable[[], float] = time.time):
        self.app, self.key, self.now = app, key, now
        # Asks for a token by the word of the app, and gives it with the time of its end.
        self.token_of = token_of
        self.token: Optional[str] = None
        self.end = 0.0
        # After a fault it asks for none for a while, and says why.
        self.not_before, self.faults, self.why = 0.0, 0, ""
        # A key that can't be used ends the host at its start, and no later.
        signed_by(app, secret_in(key), int(now()))

    def header(self) -> str:
        if self.token is None or self.now() > self.end - SECONDS_BEFORE_END:
            self.token, self.end = self.new_token()
        return f"Bearer {self.token}"

    def new_token(self) -> Tuple[str, float]:
        """Another token. GitHub shuts out who goes on asking with what it doesn't take."""
        word = self.word()
        if self.now() < self.not_before:
            raise Unable(self.why)
        try:
            found = self.token_of(word)
        except Unable as fault:
            self.not_before, self.why = self.now() + pause_after_fault(self.faults), str(fault)
            self.faults += 1
            raise
        self.faults = 0
        return found

    def refused(self) -> None:
        self.token = None

    def word(self) -> str:
        """What the app says of itself, signed by its key as the file has it now."""
        try:
            return signed_by(self.app, now_in(self.key), int(self.now()))
        except Trouble as fault:
            raise Unable(str(fault)) from fault


def signed_by(app: str, key: str, now: int) -> str:
    """What an app says of itself, signed by its key."""
    import jwt
    said = {"iat": now - SECONDS_BACK, "exp": now + SECONDS_OF_WORD, "iss": app}
    try:
        return str(jwt.encode(said, key, algorithm="RS256"))
    except (ValueError, TypeError, AttributeError) as fault:
        # A public key, one of another kind, and one with a password are read, and can't sign.
        raise Trouble("the file of the app's key has no such key") from fault


class AppItself:
    """The app by its own word, and not by a token of its installation. So it asks for itself, and for nothing of a repository."""

    def __init__(self, app: AppWithKey):
        self.app = app

    def header(self) -> str:
        return f"Bearer {self.app.word()}"

    def refused(self) -> None:
        """Each request has a new word anyway."""
