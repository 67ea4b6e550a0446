"""Attacks on the notes of a host, by a real user of the system who wants the word of another one. `.ci/test_attacks` plays them.

Each has a village of its own, and raises Failed if it succeeds. Each was seen to succeed on a host that didn't know of it: the variable
GATE_HOST_FOLDER names the folder of such a host. They know the notes of the first version, which were files with the sticky bit and their
own name in their text, and those of today.

The reviewer does nothing here but say `bors r+` of another repository, or unpack or copy what the attacker gives, in a folder of the
attacker's.
"""
import hashlib
import io
import pwd
import subprocess
import tarfile
import time
from pathlib import Path
from typing import Dict, Tuple

from stories import must, want
from users import PYTHON, Village, as_user, in_bytes, make_folder

# Moves all that lies in a folder into the spool. A folder that can't be moved it makes anew, as one of the attacker's.
MOVE = """
import os, sys
source, spool = sys.argv[1:]
for name in sorted(os.listdir(source)):
    try:
        os.rename(f"{source}/{name}", f"{spool}/{name}")
        print("moved", name)
    except PermissionError:
        os.mkdir(f"{spool}/{name}", 0o755)
        print("made", name)
"""
# Leaves many notes: comments on change 1, which say nothing. It waits for no disk.
FLOOD = """
import os, sys
os.fsync = id
from pathlib import Path
from gate_host.faults import Trouble
from gate_host.places import Places
from gate_host.spool import leave_table
places = Places(Path(sys.argv[1]))
for number in range(int(sys.argv[2])):
    try:
        leave_table(places, {"kind": "comment", "person": "somebody", "change": 1, "text": f"{number}", "head": sys.argv[3]})
    except Trouble:
        # The host says that there are too many.
        pass
"""
# The mark that a file has, if the host knows marks.
MARK = """
import os, sys
try:
    from gate_host.marks import mark_of
except ImportError:
    mark_of = str
print(mark_of(os.open(sys.argv[1], os.O_RDONLY)))
"""
MODE = 0o1644
# So long is a text whose length has to be known before the text is.
LENGTH = 1024
# What a pipe of tar is read by.
RECORD = 10240
# So long a note of the reviewer's may take with a flood, besides ten times of what one takes without.
SECONDS_FOR_REVIEWER = 30


# --- What the attacker makes


def evil_repository(village: Village, path: str = "evil.git") -> Path:
    """A repository of the attacker's, with its own folder for notes, and with the change of the project."""
    evil = village.homes[village.attacker] / path
    village.must_git(village.attacker, village.room, "init", "--quiet", "--bare", "--initial-branch=main", evil)
    village.must_git(village.attacker, evil, "fetch", "--quiet", village.repository, "refs/heads/*:refs/heads/*")
    village.initialise(village.attacker, evil)
    return evil


def move_all(village: Village, source: Path) -> None:
    """The attacker moves all that lies in a folder of his into the spool of the project."""
    moved = village.script(village.attacker, MOVE, source, village.spool)
    must(f"whether something was moved, by {moved!r}", "moved " in moved)


def name_of(text: bytes) -> str:
    return f"{time.time_ns():020d}-{hashlib.sha256(text).hexdigest()[:32]}"


def old_note(village: Village, mark: str) -> Tuple[str, bytes]:
    """A note as the first version had them, with all that it would need today."""
    name = f"{time.time_ns():020d}-{'7' * 32}"
    return name, in_bytes(village.forged(name=name, mark=mark)).ljust(LENGTH)


def new_note(village: Village, mark: str, nonce: int) -> Tuple[str, bytes]:
    """A note of today. The file of the text has the name with a dot before it, and the name is that of a folder."""
    text = in_bytes(village.forged(mark=mark, nonce=f"{nonce:032d}")).ljust(LENGTH)
    return name_of(text), text


def guessed_mark(village: Village) -> str:
    """The mark of a file of the attacker's: one of the reviewer's will have another one."""
    path = village.homes[village.attacker] / "guess"
    path.touch()
    return village.script(village.attacker, MARK, path).strip()


def forged_notes(village: Village) -> Tuple[Dict[str, bytes], Dict[str, int]]:
    """Files with their texts, and folders with their modes. One folder may be written by all, so the attacker can move it."""
    mark = guessed_mark(village)
    name, text = old_note(village, mark)
    files, folders = {name: text}, {}
    for nonce, mode in enumerate((0o755, 0o777)):
        name, text = new_note(village, mark, nonce)
        files[f".{name}"], folders[name] = text, mode
    return files, folders


def must_be_of_reviewer(village: Village, folder: Path) -> None:
    """What the reviewer has made there is the reviewer's, with the mode of a note. Otherwise it would be no attack."""
    user = pwd.getpwnam(village.reviewer).pw_uid
    found = {path: path.lstat() for path in folder.iterdir()}
    want("how many things the reviewer has made", len(found), 5)
    want("whose they are", {it.st_uid for it in found.values()}, {user})
    want("which modes the files have", {found[path].st_mode & 0o7777 for path in found if path.is_file()}, {MODE})


def header(name: str, mode: int, size: int, is_folder: bool = False) -> bytes:
    """The beginning of a file or a folder in an archive."""
    member = tarfile.TarInfo(name)
    member.mode, member.size, member.mtime = mode, size, int(time.time())
    member.type = tarfile.DIRTYPE if is_folder else tarfile.REGTYPE
    return member.tobuf(tarfile.USTAR_FORMAT)


def archive_of(files: Dict[str, bytes], folders: Dict[str, int]) -> bytes:
    content = io.BytesIO()
    for name, text in files.items():
        content.write(header(name, MODE, len(text)) + text.ljust(-(-len(text) // 512) * 512, b"\0"))
    for name, mode in folders.items():
        content.write(header(name, mode, 0, True))
    return content.getvalue() + b"\0" * 1024


# --- A note of another repository


def attack_moved_note(village: Village) -> None:
    """The reviewer approves a change of the attacker's own repository, and the attacker moves that note into the project."""
    evil = evil_repository(village)
    village.must_say(village.reviewer, "bors r+", evil)
    move_all(village, evil / "gate/spool")
    village.must_have_said_nothing()


def attack_moved_note_with_copied_identity(village: Village) -> None:
    """The same, and the other repository has the identifier of the project."""
    evil = evil_repository(village)
    if (village.repository / "gate/identity").exists():
        village.must_run(village.attacker, "cp", village.repository / "gate/identity", evil / "gate/identity")
    village.must_say(village.reviewer, "bors r+", evil)
    move_all(village, evil / "gate/spool")
    village.must_have_said_nothing()


def attack_link_to_folder(village: Village) -> None:
    """The folder `gate` of the other repository is a link to that of the project, so the note is left there at once."""
    evil = evil_repository(village)
    village.must_run(village.attacker, "rm", "-r", evil / "gate")
    village.must_run(village.attacker, "ln", "-s", village.repository / "gate", evil / "gate")
    village.say(village.reviewer, "bors r+", evil)
    village.must_have_said_nothing()


def attack_link_to_spool(village: Village) -> None:
    """The same with the spool alone, and with the identifier of the project."""
    evil = evil_repository(village)
    if (village.repository / "gate/identity").exists():
        village.must_run(village.attacker, "cp", village.repository / "gate/identity", evil / "gate/identity")
    village.must_run(village.attacker, "rm", "-r", evil / "gate/spool")
    village.must_run(village.attacker, "ln", "-s", village.spool, evil / "gate/spool")
    village.say(village.reviewer, "bors r+", evil)
    village.must_have_said_nothing()


def attack_folder_becomes_link(village: Village) -> None:
    """While the command of the reviewer, who means the attacker's repository, waits for its text, a folder above that becomes a link to
    that of the project."""
    home = village.homes[village.attacker]
    make_folder(home / "above", village.attacker, 0o755)
    evil = evil_repository(village, f"above/{village.repository.name}")
    command = [PYTHON, str(village.host / "gate-host"), "say", "1", "-", "--repository", str(evil)]
    given = {**as_user(village.reviewer, village.room), "stdin": subprocess.PIPE, "stdout": subprocess.DEVNULL, "stderr": subprocess.PIPE}
    with subprocess.Popen(command, **given) as saying:
        try:
            waits_in = Path(f"/proc/{saying.pid}/wchan")
            village.until("the command reads its text", lambda: "pipe_read" in waits_in.read_text(encoding="utf-8"))
            (home / "above").rename(home / "aside")
            (home / "above").symlink_to(village.homes[village.owner])
            said = saying.communicate(b"bors r+", timeout=60)[1]
        finally:
            saying.kill()
    must(f"whether it looked for the change, by {said!r}", b"no branch" not in said)
    village.must_have_said_nothing()


# --- A file of the reviewer's with a text of the attacker's


def attack_archive(village: Village) -> None:
    """The reviewer unpacks an archive, and the attacker moves what comes out of it into the spool."""
    folder = make_folder(village.homes[village.attacker] / "unpacked", village.attacker, 0o777)
    archive = village.homes[village.attacker] / "evil.tar"
    archive.write_bytes(archive_of(*forged_notes(village)))
    village.must_run(village.reviewer, "tar", "-xpf", archive, cwd=folder)
    must_be_of_reviewer(village, folder)
    move_all(village, folder)
    village.must_have_said_nothing()


def attack_copy(village: Village) -> None:
    """The reviewer copies files with their modes. (`cp -a` takes the sticky bit away from files of others, and this doesn't.)"""
    source, folder = (make_folder(village.homes[village.attacker] / name, village.attacker, 0o777) for name in ("source", "copied"))
    files, folders = forged_notes(village)
    for name, text in files.items():
        (source / name).write_bytes(text)
        (source / name).chmod(MODE)
    for name, mode in folders.items():
        make_folder(source / name, village.attacker, mode)
    # The status is 1, since the outer folder isn't the reviewer's.
    village.run(village.reviewer, "cp", "-r", "--preserve=mode", "--no-target-directory", source, folder)
    must_be_of_reviewer(village, folder)
    move_all(village, folder)
    village.must_have_said_nothing()


def attack_stream(village: Village) -> None:
    """The archive comes by a pipe that the attacker fills. A text is written only when its file is there, and so the mark is known."""
    folder = make_folder(village.homes[village.attacker] / "unpacked", village.attacker, 0o777)
    command = ["tar", "-xpf", "-"]
    given = {**as_user(village.reviewer, village.room), "cwd": folder, "stdin": subprocess.PIPE, "stderr": subprocess.DEVNULL}
    with subprocess.Popen(command, **given) as unpacking:
        names = streamed_notes(village, folder, unpacking)
        unpacking.stdin.write(b"\0" * 2 * RECORD)
        unpacking.stdin.close()
        want("how tar ends", unpacking.wait(60), 0)
    (folder / "filler").unlink()
    for part, name in names.items():
        (folder / part).rename(folder / name)
    must_be_of_reviewer(village, folder)
    move_all(village, folder)
    village.must_have_said_nothing()


def streamed_notes(village: Village, folder: Path, unpacking: subprocess.Popen) -> Dict[str, str]:
    """Writes an archive of three notes into a pipe, each with the mark that its file turned out to have. Gives their names."""
    names = {}
    for number, mode in enumerate((None, 0o755, 0o777)):
        part = f"part-{number}"
        # tar reads whole records. One ends with the header of the file, so that tar makes the file and waits.
        filler = RECORD - 2 * 512
        unpacking.stdin.write(header("filler", 0o644, filler) + b"x" * filler + header(part, MODE, LENGTH))
        unpacking.stdin.flush()
        village.until("tar has made the file", lambda: (folder / part).exists())
        mark = village.script(village.attacker, MARK, folder / part).strip()
        name, text = old_note(village, mark) if mode is None else new_note(village, mark, number)
        names[part] = name if mode is None else f".{name}"
        rest = text + (header(name, mode, 0, True) if mode else b"")
        # The next header stands at the end of a record again.
        rest += header("filler", 0o644, RECORD - 512 - len(rest)) if len(rest) < RECORD - 512 else b""
        unpacking.stdin.write(rest.ljust(RECORD, b"x"))
        unpacking.stdin.flush()
    village.until("tar has made the last folder", lambda: (folder / name).exists())
    return names


def attack_archive_through_link(village: Village) -> None:
    """A link in the folder of the attacker's leads into the spool, so what comes out of the archive is there at once."""
    folder = make_folder(village.homes[village.attacker] / "unpacked", village.attacker, 0o777)
    village.must_run(village.attacker, "ln", "-s", village.spool, folder / "x")
    files, folders = forged_notes(village)
    archive = village.homes[village.attacker] / "evil.tar"
    archive.write_bytes(archive_of({f"x/{name}": text for name, text in files.items()}, {f"x/{name}": it for name, it in folders.items()}))
    village.must_run(village.reviewer, "tar", "-xpf", archive, cwd=folder)
    must("whether it came through the link", (folder / "x").is_symlink())
    village.must_have_said_nothing()


# --- Floods


def seconds_for_a_comment(village: Village) -> float:
    """How long it takes until a comment is shown. It depends on what else the machine does."""
    village.must_say(village.attacker, "nothing so far")
    start = time.monotonic()
    village.told("> nothing so far")
    return time.monotonic() - start


def attack_flood(village: Village) -> None:
    """The attacker leaves many notes while no host runs, and goes on with it. They aren't to keep the reviewer's waiting."""
    calm = seconds_for_a_comment(village)
    village.stop()
    village.script(village.attacker, FLOOD, village.repository, "20000", village.head)
    village.start()
    command = [PYTHON, "-c", FLOOD, str(village.repository), "1000000", village.head]
    given = as_user(village.attacker, village.room)
    given["env"]["PYTHONPATH"] = str(village.host)
    with subprocess.Popen(command, **given) as flooding:
        try:
            # By then the bot has begun, which takes a while.
            village.told("    > 0\n")
            village.must_say(village.reviewer, "bors r+")
            village.told(f"  {village.reviewer} wrote:\n    > bors r+", SECONDS_FOR_REVIEWER + 10 * calm)
            must("whether the flood goes on", flooding.poll() is None)
        finally:
            flooding.kill()


def attack_flood_in_the_name_of_the_reviewer(village: Village) -> None:
    """The attacker has many files and folders that the reviewer has made, and moves them into the spool. They aren't to keep the
    reviewer's own note waiting, or to have it thrown away."""
    folder = make_folder(village.homes[village.attacker] / "unpacked", village.attacker, 0o777)
    names = [f"{number:020d}-{'7' * 32}" for number in range(1, 2001)]
    files = {**{name: b"x" for name in names[:1000]}, **{f".part-{name}": b"x" for name in names[:1500]}}
    archive = archive_of(files, {name: 0o777 for name in names[1000:]})
    village.must_run(village.reviewer, "tar", "-xp", cwd=folder, input=archive, encoding=None)
    calm = seconds_for_a_comment(village)
    move_all(village, folder)
    village.must_say(village.reviewer, "bors r+")
    village.told(f"  {village.reviewer} wrote:\n    > bors r+", SECONDS_FOR_REVIEWER + 10 * calm)


ATTACKS = [
    attack_moved_note, attack_moved_note_with_copied_identity, attack_link_to_folder, attack_link_to_spool, attack_folder_becomes_link,
    attack_archive, attack_copy, attack_stream, attack_archive_through_link, attack_flood, attack_flood_in_the_name_of_the_reviewer,
]
