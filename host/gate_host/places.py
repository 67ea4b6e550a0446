"""Where the host keeps what it has: the folder `gate` of the repository. And what a user may be told that went wrong."""
import os
import pwd
import re
import secrets
import stat
import subprocess
from dataclasses import dataclass
from pathlib import Path
from typing import Callable, Optional, Tuple, Union

from .faults import Trouble
from .git import ALONE, clean_environment

NAME = re.compile(r"[A-Za-z0-9_.\[\]-]{1,64}")
# A file of settings or roles is read up to this size.
MOST_BYTES = 65536
# A reference of git's has a commit or the name of another one, with `ref: ` before it.
COMMIT = re.compile(r"[0-9a-f]{40}")
IDENTITY = re.compile(r"[0-9a-f]{32}")


@dataclass(frozen=True)
class Places:
    """The files of the host. All of them stand in one folder, which only the owner of the repository may write."""

    repository: Path

    @property
    def folder(self) -> Path:
        return self.repository / "gate"

    @property
    def settings(self) -> Path:
        return self.folder / "settings"

    @property
    def roles(self) -> Path:
        return self.folder / "roles"

    @property
    def first(self) -> Path:
        """The commit with which `init` has made the main branch, if it has. Everybody may read it."""
        return self.folder / "first"

    def first_commit(self) -> str:
        """That commit, or nothing."""
        return trusted_text(self.first, self.owner).strip() if os.path.lexists(self.first) else ""

    @property
    def reporters(self) -> Path:
        return self.folder / "reporters"

    @property
    def identity(self) -> Path:
        """The identifier of the repository, which everybody may read."""
        return self.folder / "identity"

    @property
    def spool(self) -> Path:
        """Where everybody may leave a note, and nobody but the owner can look."""
        return self.folder / "spool"

    @property
    def reports(self) -> Path:
        """What everybody may read."""
        return self.folder / "reports"

    @property
    def outputs(self) -> Path:
        return self.reports / "checks"

    @property
    def records(self) -> Path:
        """What nobody but the owner may read: the journal, the file of the bot, the lock, the mirror, what is checked."""
        return self.folder / "records"

    @property
    def clones(self) -> Path:
        """Where commits are checked out to be tested."""
        return self.records / "clones"

    @property
    def mirror(self) -> Path:
        """The host's own copy of the objects."""
        return self.records / "mirror"

    @property
    def window(self) -> Path:
        """Where git sees the guarded repository by the host's settings."""
        return self.records / "window"

    @property
    def bot(self) -> Path:
        """The file of the bot."""
        return self.records / "bot.db"

    @property
    def owner(self) -> int:
        return self.folder.stat().st_uid

    def is_shared(self) -> bool:
        """Whether others may write files of the repository."""
        names = (".", "refs", "refs/heads", "objects", "config", "logs")
        paths = [self.repository / name for name in names if os.path.lexists(self.repository / name)]
        return any(path.is_symlink() or is_open_to_others(path) for path in paths)


def name_of_user(number: int) -> Optional[str]:
    """The name of a user of the system as the bot takes it, or none if there is no such user or it can't be such a name."""
    try:
        name = pwd.getpwuid(number).pw_name
    except KeyError:
        return None
    return person(name)


def person(name: str) -> Optional[str]:
    """A name of a person as the bot keeps it, or none if it is no name."""
    return name.lower() if NAME.fullmatch(name) else None


def person_here(owner: int) -> Optional[str]:
    """Who has started this process. Only a process of the owner is believed a name of gitolite: anybody can set a variable."""
    user = os.geteuid()
    if user == owner and os.environ.get("GL_USER"):
        return person(os.environ["GL_USER"])
    return name_of_user(user)


def open_regular(path: Union[str, Path], folder: Optional[int] = None) -> int:
    """Opens a file for reading, without following a link and without waiting for what is no file."""
    return os.open(path, os.O_RDONLY | os.O_NOFOLLOW | os.O_NONBLOCK | os.O_CLOEXEC, dir_fd=folder)


def read_up_to(file: int, most: int) -> bytes:
    """What a file has, up to one byte more than the most that it may have."""
    content = b""
    while len(content) <= most:
        part = os.read(file, most + 1 - len(content))
        if not part:
            break
        content += part
    return content


def checked_content(path: Path, wrong: Callable[[os.stat_result], Optional[str]]) -> bytes:
    """What a file has. One that can't be read, that is wrong, as is told by its state, or that is too long is refused."""
    try:
        file = open_regular(path)
    except OSError as fault:
        raise Trouble(f"{path} can't be read: {fault.strerror}") from fault
    try:
        why = wrong(os.fstat(file))
        if why:
            raise Trouble(why)
        content = read_up_to(file, MOST_BYTES)
    finally:
        os.close(file)
    if len(content) > MOST_BYTES:
        raise Trouble(f"{path} has more than {MOST_BYTES} bytes")
    return content


def trusted_text(path: Path, owner: int) -> str:
    """The text of a file that nobody but its owner can write. Any other file is refused."""
    def wrong(found: os.stat_result) -> Optional[str]:
        is_right = stat.S_ISREG(found.st_mode) and found.st_uid == owner and not found.st_mode & 0o022
        return None if is_right else f"{path} has to be a file of the owner of the repository, which nobody else may write"

    content = checked_content(path, wrong)
    try:
        return content.decode("utf-8")
    except UnicodeDecodeError as fault:
        raise Trouble(f"{path} isn't written in UTF-8") from fault


def is_open_to_others(path: Path) -> bool:
    """Whether others may write a file or folder, as far as that can be told. One that isn't there isn't written."""
    try:
        return os.lstat(path).st_mode & 0o022 != 0
    except FileNotFoundError:
        return False
    except OSError:
        return True


def must_be_safe(places: Places) -> None:
    """Refuses a folder that isn't the user's own, or that others may write: they could put other files in place of the host's. Others may
    write the repository's folder and that of its objects if these are sticky: then they can't exchange what is the owner's. In the folder
    `info` of the objects a file would have git read other ones."""
    objects = places.repository / "objects"
    exchanged = [path for path in (places.repository, objects) if is_open_to_others(path) and not os.lstat(path).st_mode & stat.S_ISVTX]
    if is_open_to_others(objects / "info"):
        exchanged.append(objects / "info")
    for path in exchanged:
        raise Trouble(f"others may write {path}, and could exchange what is in it; gate-host init {places.repository} mends that")
    for folder in (places.folder, places.records, places.reports, places.spool):
        found = os.lstat(folder) if folder.exists() else None
        if found is None or not stat.S_ISDIR(found.st_mode):
            raise Trouble(f"{folder} isn't there; gate-host init {places.repository} makes it")
        if found.st_uid != os.geteuid():
            raise Trouble(f"{folder} isn't yours; the host runs as the owner of the repository")
        if found.st_mode & 0o022 and not (folder == places.spool and found.st_mode & stat.S_ISVTX):
            raise Trouble(f"others may write {folder}; chmod go-w it")


def make_identity(places: Places) -> None:
    """Gives the repository its identifier, unless it has one. It is there whole or not at all."""
    part = places.identity.with_name(f".identity-{secrets.token_hex(8)}")
    try:
        with open(part, "x", encoding="utf-8") as file:
            file.write(f"{secrets.token_hex(16)}\n")
            file.flush()
            os.fchmod(file.fileno(), 0o644)
            os.fsync(file.fileno())
        os.link(part, places.identity)
    except FileExistsError:
        pass
    finally:
        part.unlink(missing_ok=True)


def name_of_repository(places: Places, folder: Optional[int] = None) -> str:
    """By what a note names its repository: the identifier, and the number of the folder's inode. Everybody can copy the identifier, and
    nobody can choose the number. A number alone comes again when its folder is gone. `folder` is the repository's folder, if it is open."""
    if not os.path.lexists(places.identity):
        raise Trouble(f"{places.identity} isn't there; gate-host init {places.repository} makes it")
    identity = trusted_text(places.identity, places.owner).strip()
    if not IDENTITY.fullmatch(identity):
        raise Trouble(f"{places.identity} has no 32 hexadecimal digits; remove it, and gate-host init {places.repository} makes another")
    return f"{identity}-{os.stat(places.repository if folder is None else folder).st_ino}"


def asked_of_git(folder: Path, *arguments: str) -> Optional[str]:
    """What git says of the folder in which a user stands, or none if it says no. It obeys no settings of the user."""
    # A repository of somebody else is read only, and nothing that it says is run.
    command = ["git", "-c", "safe.directory=*", "-C", str(folder), *arguments]
    environment = {**clean_environment(), **ALONE}
    try:
        ran = subprocess.run(command, env=environment, stdin=subprocess.DEVNULL, capture_output=True, timeout=60, check=False)
    except (OSError, subprocess.TimeoutExpired) as fault:
        raise Trouble(f"git can't be run: {fault}") from fault
    return ran.stdout.decode(errors="replace").strip() if ran.returncode == 0 else None


def pointed_to(repository: Path, name: str) -> Tuple[Optional[str], str]:
    """The commit of a reference, and the name of the last reference on the way to it, read from the files of git. No git runs, so nothing
    that stands in the repository is obeyed. An empty repository has a HEAD without a commit."""
    for _ in range(5):
        path = repository / name
        if path.is_symlink() and os.readlink(path).startswith("refs/"):
            name = os.readlink(path)
            continue
        text = text_of_reference(path) or packed(repository, name) or ""
        if not text.startswith("ref:"):
            return (text if COMMIT.fullmatch(text) else None), name
        name = text[len("ref:"):].strip()
    return None, name


def text_of_reference(path: Path) -> Optional[str]:
    """The text of a small file, without waiting for what is no file."""
    try:
        file = os.open(path, os.O_RDONLY | os.O_NONBLOCK | os.O_CLOEXEC)
    except OSError:
        return None
    try:
        is_file = stat.S_ISREG(os.fstat(file).st_mode)
        return read_up_to(file, MOST_BYTES).decode(errors="replace").strip() if is_file else None
    finally:
        os.close(file)


def packed(repository: Path, name: str) -> Optional[str]:
    """The commit of a reference that git has put into its file of many."""
    try:
        with open(repository / "packed-refs", encoding="utf-8", errors="replace", newline="\n") as lines:
            return next((line[:40] for line in lines if line[40:].rstrip("\n") == f" {name}"), None)
    except OSError:
        return None


def find_places(given: Optional[str]) -> Places:
    """The repository that is named, or the one in which the user stands, or that of which the user stands in a clone."""
    if given is not None:
        found = Path(given).resolve()
        if not (found / "gate").is_dir():
            raise Trouble(f"{given} has no folder gate; gate-host init {given} makes it")
        return Places(found)
    for folder in (Path.cwd(), *Path.cwd().parents):
        if (folder / "gate").is_dir() and (folder / "HEAD").is_file() and (folder / "objects").is_dir():
            return Places(folder.resolve())
    origin = asked_of_git(Path.cwd(), "config", "remote.origin.url")
    path = Path(re.sub(r"^file://", "", origin or ""))
    if path.is_absolute() and (path / "gate").is_dir():
        return Places(path.resolve())
    raise Trouble("this is no repository with a host, nor a clone of one; name it by --repository")
