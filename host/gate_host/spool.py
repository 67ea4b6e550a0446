"""The spool: a folder in which everybody may leave a note for the host. Who left it is what the system says.

A note is an empty folder, and beside it a file with the text of the note, under the same name with a dot first. The name has the hash of
the text. So who made the folder vouches for the text, and its owner is the one who left the note.

Why a folder: whoever may write a folder can move each file in it to somewhere else, whoever's file it is. So a file that somebody made in
another place, by unpacking an archive or for another repository, can be brought here by others. A folder can't: Linux lets nobody move a
folder into another one who may not write the folder itself. So a folder that its owner alone may write was put here by its owner.

What is left is that a link leads somebody here who means another place. So:

- The text names the repository for which it was left, and `leave` goes through no link.
- The text has the mark of its own file, which nobody knows who prepares an archive.

A note that is put back counts once, since its name is in the journal. What is no file, as a pipe, is opened without waiting, and refused.
"""
import hashlib
import json
import os
import re
import secrets
import stat
import time
from bisect import bisect
from collections import Counter
from contextlib import ExitStack, contextmanager, suppress
from dataclasses import dataclass
from itertools import islice
from pathlib import Path
from typing import Callable, Dict, Iterator, List, Mapping, NamedTuple, Optional, Set, Tuple, Union

from .core.notes import Left, note_in, table_of
from .core.notes import Note as Said
from .marks import mark_of
from .faults import Trouble
from .places import Places, name_of_repository, name_of_user, open_regular, person, read_up_to

# The names that notes have: when they were left, and the first half of the hash of their text.
NAME = re.compile(r"[0-9]{20}-[0-9a-f]{32}")
# The text is readable by the host, whoever writes it; and it has the sticky bit, which means nothing else on a file.
MODE = 0o1644
MOST_BYTES = 32768
# So many notes of one user are taken in a round, so that nobody waits for the notes of somebody else. The owner is trusted with more: if
# all come by ssh, what they say is the owner's.
MOST_PER_USER = 10
MOST_OF_OWNER = 500
# So many names of one user may lie there. Those of the owner aren't counted.
MOST_WAITING = 1000
# After so many rounds each note has been taken that lay there before them, also if others have come meanwhile.
ROUNDS_FOR_ALL = MOST_WAITING // MOST_PER_USER + 1
# A name that begins with a dot and has no folder is a note that isn't whole yet. It stays so long.
SECONDS_FOR_PART = 60
# So long a round may look at names that are new, and so long it may remove what is no note. The rest is for the next round.
SECONDS_FOR_LOOKING = 0.5
SECONDS_FOR_REMOVING = 0.2
# More names than these aren't even listed, since they would fill the memory.
MOST_LISTED = 300_000
# Why a name goes away that has no fault.
OLD, TOO_MANY = "old", "too many"


@dataclass(frozen=True)
class Note:
    """A note, and who left it."""

    name: str
    person: str
    # What it says, and the table in which that stands.
    said: Said
    body: Mapping[str, object]
    # When the system says that its folder was made. Nobody can set that time.
    left: int


class Seen(NamedTuple):
    """What the first look at a name has found."""

    user: int
    since: float
    # Why it is no note, or nothing.
    fault: str


class Refused(Exception):
    """Why something isn't taken for a note."""


def leave(places: Places, left: Left) -> None:
    """Leaves a note."""
    leave_table(places, table_of(left))


def leave_table(places: Places, body: Mapping[str, object]) -> None:
    """Leaves a note. When its folder is made, its text is whole."""
    with opened_spool(places) as (repository, spool):
        part = f".part-{secrets.token_hex(16)}"
        file = os.open(part, os.O_WRONLY | os.O_CREAT | os.O_EXCL | os.O_NOFOLLOW | os.O_CLOEXEC, 0o600, dir_fd=spool)
        try:
            with os.fdopen(file, "wb") as opened:
                more = {"repository": name_of_repository(places, repository), "mark": mark_of(file), "nonce": secrets.token_hex(16)}
                text = in_bytes({**body, **more})
                if len(text) > MOST_BYTES:
                    raise Trouble(f"a note has at most {MOST_BYTES} bytes")
                opened.write(text)
                opened.flush()
                os.fchmod(file, MODE)
                os.fsync(file)
            name = f"{time.time_ns():020d}-{hash_of(text)}"
            try:
                os.rename(part, f".{name}", src_dir_fd=spool, dst_dir_fd=spool)
            except FileNotFoundError as fault:
                raise Trouble("the host has removed this, since too many notes of yours wait; try again later") from fault
        except BaseException:
            with suppress(FileNotFoundError):
                os.unlink(part, dir_fd=spool)
            raise
        os.mkdir(name, 0o755, dir_fd=spool)


def in_bytes(body: Mapping[str, object]) -> bytes:
    return json.dumps(body, ensure_ascii=False).encode("utf-8", "replace")


def hash_of(text: bytes) -> str:
    return hashlib.sha256(text).hexdigest()[:32]


@contextmanager
def opened_spool(places: Places) -> Iterator[Tuple[int, int]]:
    """The folders of the repository and of its spool, opened. No link may lead to them: it could lead to those of another repository than
    the one that is meant. Others can't list the spool, so it isn't opened for that."""
    with ExitStack() as opened:
        folders: List[int] = []
        for path in (places.repository, places.folder, places.spool):
            name: Union[str, Path] = path.name if folders else path
            try:
                flags = os.O_PATH | os.O_DIRECTORY | os.O_NOFOLLOW | os.O_CLOEXEC
                folders.append(os.open(name, flags, dir_fd=folders[-1] if folders else None))
            except OSError as fault:
                raise Trouble(f"{path} has to be a folder, and no link to one: {fault.strerror}") from fault
            opened.callback(os.close, folders[-1])
        # The folders above it may have become links meanwhile.
        if os.readlink(f"/proc/self/fd/{folders[0]}") != str(places.repository):
            raise Trouble(f"{places.repository} leads to another place than a moment ago")
        yield folders[0], folders[2]


class Spool:
    """The spool as the host sees it, who alone can list it."""

    def __init__(self, places: Places, owner: int, complain: Callable[[str], None]):
        self.path = places.spool
        self.owner = owner
        self.complain = complain
        self.repository = name_of_repository(places)
        # Whether the last look has left something for the next one, and who has left more notes than it took.
        self.has_more = False
        self.waiting: Set[str] = set()
        # What was found out about the names that lie there and about their users, so that each is looked at once.
        self.seen: Dict[str, Seen] = {}
        self.people: Dict[int, Optional[str]] = {}
        # Which of them can't be removed.
        self.stuck: Set[str] = set()
        # Of the last look: why something wasn't taken, whose names were too many, and what can't be removed and why.
        self.refusals: List[str] = []
        self.surplus: List[str] = []
        self.faults: List[str] = []

    def take(self) -> List[Note]:
        """Notes that lie there, in the order in which they were left. They stay until they are removed. Of each user it takes some at a
        time, so nobody's notes keep those of others waiting for long."""
        with self.opened() as folder:
            self.look_at(folder, names_in(folder))
            by_user: Dict[int, List[str]] = {}
            for name, seen in self.seen.items():
                by_user.setdefault(seen.user, []).append(name)
            chosen: List[str] = []
            gone: List[Tuple[str, str]] = []
            for user, names in by_user.items():
                self.sort_out(user, names, chosen, gone)
            notes = [note for note in (self.note_or_none(folder, name) for name in chosen) if note]
            self.clear(folder, gone)
        self.tell()
        return sorted(notes, key=lambda note: (note.left, note.name))

    @contextmanager
    def opened(self) -> Iterator[int]:
        """The folder. Who may write that of the repository could have put another one in its place."""
        folder = os.open(self.path, os.O_RDONLY | os.O_DIRECTORY | os.O_NOFOLLOW | os.O_CLOEXEC)
        try:
            if os.fstat(folder).st_uid != self.owner:
                raise Trouble(f"{self.path} isn't yours; the host runs as the owner of the repository")
            yield folder
        finally:
            os.close(folder)

    # Which names are there, and whose

    def look_at(self, folder: int, names: Set[str]) -> None:
        """Looks at the names that are new, and forgets those that have gone."""
        self.has_more = len(names) == MOST_LISTED
        self.waiting.clear()
        # The text of a note belongs to its folder.
        names -= {f".{name}" for name in names if not name.startswith(".")}
        self.stuck &= names
        names -= self.stuck
        self.seen = {name: seen for name, seen in self.seen.items() if name in names}
        users = {seen.user for seen in self.seen.values()}
        self.people = {user: found for user, found in self.people.items() if user in users}
        late = time.monotonic() + SECONDS_FOR_LOOKING
        # Nobody can foresee the order of a set, so nobody's names always come last.
        for name in names - self.seen.keys():
            if time.monotonic() > late:
                self.has_more = True
                break
            with suppress(FileNotFoundError):
                self.seen[name] = self.first_look(name, os.lstat(name, dir_fd=folder))

    def first_look(self, name: str, found: os.stat_result) -> Seen:
        user = found.st_uid
        if user not in self.people:
            self.people[user] = name_of_user(user)
        if self.people[user] is None:
            fault = f"user {user} has no name that the bot takes"
        else:
            fault = "" if name.startswith(".") else fault_of_folder(name, found)
        return Seen(user, found.st_ctime, fault)

    def sort_out(self, user: int, names: List[str], chosen: List[str], gone: List[Tuple[str, str]]) -> None:
        """Adds which notes of a user are read now, in the order of their names, and which names go away, each with the reason."""
        whole: List[str] = []
        parts: List[Tuple[float, str]] = []
        for name in names:
            _, since, fault = self.seen[name]
            if fault:
                gone.append((name, fault))
            elif name.startswith("."):
                parts.append((since, name))
            else:
                whole.append(name)
        whole.sort()
        parts.sort()
        most = MOST_OF_OWNER if user == self.owner else MOST_PER_USER
        chosen += whole[:most]
        if len(whole) > most:
            self.has_more = True
            self.waiting.add(self.people[user] or "nobody")
        old = bisect(parts, (time.time() - SECONDS_FOR_PART, ""))
        gone += [(name, OLD) for _, name in parts[:old]]
        if user != self.owner:
            # Of notes the newest go, and of parts the oldest: the newest may be one that is being written.
            gone += [(name, TOO_MANY) for name in whole[MOST_WAITING:]]
            over = len(parts) - old - max(0, MOST_WAITING - len(whole))
            gone += [(name, TOO_MANY) for _, name in parts[old:old + max(0, over)]]

    # Reading

    def note_or_none(self, folder: int, name: str) -> Optional[Note]:
        """A note, or none; what is no note is removed."""
        try:
            return self.read(folder, name)
        except FileNotFoundError:
            return None
        except Refused as refused:
            self.refusals.append(str(refused))
        except OSError as fault:
            self.refusals.append(str(fault.strerror))
        self.remove_from(folder, name)
        return None

    def read(self, folder: int, name: str) -> Note:
        found = os.lstat(name, dir_fd=folder)
        fault = fault_of_folder(name, found)
        if fault:
            raise Refused(fault)
        text, mark = self.text_of(folder, name, found.st_uid)
        if not name.endswith(hash_of(text)):
            raise Refused("its text isn't the one that was left")
        body = self.body_of(text, mark)
        who = self.person_of(found.st_uid, body)
        return Note(name, who, note_in(name, who, body), body, found.st_ctime_ns)

    def text_of(self, folder: int, name: str, user: int) -> Tuple[bytes, str]:
        """The text of a note, with the mark of the file in which it stands."""
        try:
            file = open_regular(f".{name}", folder)
        except FileNotFoundError as fault:
            raise Refused("it has no text") from fault
        try:
            found = os.fstat(file)
            if not stat.S_ISREG(found.st_mode):
                raise Refused("its text isn't a regular file")
            if found.st_uid != user:
                raise Refused("its text is of somebody else")
            if stat.S_IMODE(found.st_mode) != MODE:
                raise Refused("its text isn't marked as that of a note")
            text = read_up_to(file, MOST_BYTES)
            mark = mark_of(file)
        finally:
            os.close(file)
        if len(text) > MOST_BYTES:
            raise Refused("it is too long")
        return text, mark

    def body_of(self, text: bytes, mark: str) -> Dict[str, object]:
        try:
            body = json.loads(text)
        except (ValueError, RecursionError) as fault:
            raise Refused("it isn't JSON") from fault
        if not isinstance(body, dict):
            raise Refused("it isn't an object of JSON")
        if body.get("repository") != self.repository:
            raise Refused("it was left for another repository")
        if body.get("mark") != mark:
            raise Refused("its text is a copy: it was written for another file")
        return body

    def person_of(self, user: int, body: Mapping[str, object]) -> str:
        """The owner of the folder. The owner of the repository may write for others: so the hook does where all come by ssh."""
        named = body.get("person")
        found = person(named) if user == self.owner and isinstance(named, str) else name_of_user(user)
        if found is None:
            raise Refused(f"user {user} has no name that the bot takes")
        return found

    # Removing

    def remove(self, name: str) -> None:
        """Removes a note."""
        with self.opened() as folder:
            self.remove_from(folder, name)
        self.tell()

    def clear(self, folder: int, gone: List[Tuple[str, str]]) -> None:
        """Removes what is no note, as long as it may take. The rest is for the next round."""
        late = time.monotonic() + SECONDS_FOR_REMOVING
        for name, why in gone:
            if time.monotonic() > late:
                break
            if name.startswith(".") and is_there(folder, name[1:]):
                # It has become the text of a note meanwhile.
                continue
            self.remove_from(folder, name)
            if why == TOO_MANY:
                self.surplus.append(self.people[self.seen[name].user] or "nobody")
            elif why != OLD:
                self.refusals.append(why)

    def remove_from(self, folder: int, name: str) -> None:
        """Removes a name. The text of a note goes before its folder: if the host dies between the two, the folder is refused later."""
        for path in [name] if name.startswith(".") else [f".{name}", name]:
            fault = remove_at(folder, path)
            if fault:
                self.stuck.add(path)
                self.faults.append(f"{self.path / path} can't be removed: {fault}")

    def tell(self) -> None:
        """Complains of what was found, in a line for each kind of thing."""
        if self.refusals:
            self.complain(f"{len(self.refusals)} in the spool: no note, and so removed. The first one: {self.refusals[0]}")
        if self.surplus:
            whose = ", ".join(f"{count} of {name}" for name, count in Counter(self.surplus).most_common(5))
            self.complain(f"more than {MOST_WAITING} of one user lay in the spool, and these were removed unread: {whose}")
        if self.faults:
            self.complain(self.faults[0] + (f"; and {len(self.faults) - 1} more" if len(self.faults) > 1 else ""))
        for told in (self.refusals, self.surplus, self.faults):
            told.clear()


def names_in(folder: int) -> Set[str]:
    with os.scandir(folder) as entries:
        return {entry.name for entry in islice(entries, MOST_LISTED)}


def fault_of_folder(name: str, found: os.stat_result) -> str:
    """Why this is no folder of a note, or nothing."""
    if not stat.S_ISDIR(found.st_mode):
        return "it isn't a folder"
    if found.st_mode & 0o022:
        return "others may write its folder, and so may have moved it here"
    if not NAME.fullmatch(name):
        return "it has no name that a note has"
    return ""


def is_there(folder: int, name: str) -> bool:
    try:
        os.lstat(name, dir_fd=folder)
    except FileNotFoundError:
        return False
    return True


def remove_at(folder: int, name: str) -> Optional[str]:
    """Removes a file or an empty folder. Says why, if it can't be. A folder with something in it has to be taken away by its owner."""
    try:
        try:
            os.unlink(name, dir_fd=folder)
        except IsADirectoryError:
            os.rmdir(name, dir_fd=folder)
    except FileNotFoundError:
        return None
    except OSError as fault:
        return fault.strerror
    return None
