"""Tests of the spool. `.ci/test_gate_host` runs them; attacks_on_notes.py has a whole host attacked besides."""
import errno
import json
import os
import pwd
import shutil
import subprocess
import sys
import tempfile
import time
import unittest
from pathlib import Path
from typing import Callable, List, Optional
from unittest import mock

sys.path.insert(0, str(Path(__file__).resolve().parent.parent))

from gate_host import marks  # noqa: E402
from gate_host import spool  # noqa: E402
from gate_host.faults import Trouble  # noqa: E402
from gate_host.places import Places, make_identity, name_of_repository, name_of_user, person  # noqa: E402
from users import make_folder, may_be_others, others, run_as  # noqa: E402

MYSELF = name_of_user(os.geteuid())
IS_ROOT = os.geteuid() == 0
# Notes wait for the disk, of which memory has none.
MEMORY = "/dev/shm" if os.access("/dev/shm", os.W_OK) else None
# Users of the system who aren't the one that runs the tests.
OTHER, THIRD = [it for it in pwd.getpwall() if it.pw_uid != os.geteuid() and person(it.pw_name)][:2]


def only_root(test: Callable) -> Callable:
    return unittest.skipUnless(IS_ROOT, "files are given away by root alone")(test)


class InFolder(unittest.TestCase):
    """A test in a folder of its own."""

    def setUp(self) -> None:
        room = tempfile.TemporaryDirectory(dir=MEMORY)
        self.addCleanup(room.cleanup)
        self.room = Path(room.name).resolve()

    def make_repository(self, name: str) -> Places:
        places = Places(self.room / name)
        places.spool.mkdir(parents=True)
        make_identity(places)
        return places


class SpoolCase(InFolder):
    """A test with a repository, its spool, and what the host complains of."""

    def setUp(self) -> None:
        super().setUp()
        self.places = self.make_repository("project.git")
        self.path = self.places.spool
        self.complaints: List[str] = []
        self.spool = spool.Spool(self.places, os.geteuid(), self.complaints.append)

    def leave(self, user: Optional[int] = None, **body) -> Path:
        """Leaves a note, if need be as one of somebody else, and gives its folder."""
        before = set(os.listdir(self.path))
        spool.leave_table(self.places, body)
        name = next(it for it in set(os.listdir(self.path)) - before if not it.startswith("."))
        if user is not None:
            self.give(user, self.path / name, self.text(self.path / name))
        return self.path / name

    @staticmethod
    def text(note: Path) -> Path:
        return note.with_name(f".{note.name}")

    @staticmethod
    def give(user: int, *paths: Path) -> None:
        for path in paths:
            mode = path.lstat().st_mode & 0o7777
            os.chown(path, user, -1, follow_symlinks=False)
            path.chmod(mode)

    def put(self, text: bytes, mode: int = 0o755) -> Path:
        """Makes a note of any text, whose name has its hash."""
        note = self.path / f"{time.time_ns():020d}-{spool.hash_of(text)}"
        self.text(note).write_bytes(text)
        self.text(note).chmod(spool.MODE)
        note.mkdir()
        note.chmod(mode)
        return note

    def body(self, file: Path, **body) -> bytes:
        """The text of a note that has all that it needs, if it is written into this file."""
        opened = os.open(file, os.O_RDWR | os.O_CREAT)
        mark = marks.mark_of(opened)
        os.close(opened)
        return json.dumps({**body, "repository": name_of_repository(self.places), "mark": mark}).encode()

    def taken(self) -> list:
        """What the numbers of the notes are that the host takes now."""
        return [note.body.get("number") for note in self.spool.take()]

    def refused(self, why: str) -> None:
        """What lies in the spool is no note, for this cause, and is taken away."""
        self.assertEqual(self.spool.take(), [])
        self.assertEqual(len(self.complaints), 1, self.complaints)
        self.assertIn(why, self.complaints[0])
        # A text without a folder goes when it is old.
        self.assertEqual([it for it in self.path.iterdir() if not it.name.startswith(".")], [])
        self.complaints.clear()


class NoteTests(SpoolCase):
    """Which notes are taken, and as whose."""

    def test_notes_come_in_the_order_in_which_they_were_left(self) -> None:
        for number in range(3):
            self.leave(number=number)
        notes = self.spool.take()
        self.assertEqual([note.body["number"] for note in notes], [0, 1, 2])
        self.assertEqual({note.person for note in notes}, {MYSELF})
        self.assertEqual(self.taken(), [0, 1, 2])
        for note in notes:
            self.spool.remove(note.name)
        self.assertEqual(list(self.path.iterdir()), [])
        self.assertEqual((self.taken(), self.complaints), ([], []))

    def test_the_owner_writes_for_others(self) -> None:
        self.leave(person="Rosa")
        self.assertEqual(self.spool.take()[0].person, "rosa")

    def test_a_name_that_is_none_is_refused(self) -> None:
        self.leave(person="ro sa")
        self.refused("no name")

    @only_root
    def test_a_note_counts_for_the_owner_of_its_folder(self) -> None:
        self.leave(OTHER.pw_uid, person="rosa")
        self.assertEqual(self.spool.take()[0].person, person(OTHER.pw_name))

    @only_root
    def test_a_text_of_somebody_else_is_refused(self) -> None:
        note = self.leave(OTHER.pw_uid)
        self.assertEqual(len(self.spool.take()), 1)
        self.give(THIRD.pw_uid, note)
        self.refused("of somebody else")

    @only_root
    def test_a_user_without_a_name_is_refused(self) -> None:
        self.leave(2_000_000_000)
        self.refused("user 2000000000 has no name")

    def test_a_folder_that_others_may_write_is_refused(self) -> None:
        for mode in (0o775, 0o757, 0o777, 0o1777):
            note = self.leave()
            self.assertEqual(len(self.spool.take()), 1)
            note.chmod(mode)
            self.spool.seen.clear()
            self.refused("others may write its folder")

    def test_a_folder_is_looked_at_again_when_its_note_is_read(self) -> None:
        note = self.leave()
        self.assertEqual(len(self.spool.take()), 1)
        note.chmod(0o777)
        self.refused("others may write its folder")

    def test_a_link_or_a_file_in_place_of_the_folder_is_refused(self) -> None:
        for make in (lambda path: path.symlink_to(self.room), Path.touch, os.mkfifo):
            note = self.leave()
            self.assertEqual(len(self.spool.take()), 1)
            note.rmdir()
            make(note)
            self.spool.seen.clear()
            self.refused("it isn't a folder")

    def test_what_is_no_text_is_refused(self) -> None:
        def link(path: Path) -> None:
            os.link(self.room / "other", path)

        (self.room / "other").write_text("{}", encoding="utf-8")
        for make, why in (
            (lambda path: path.symlink_to(self.room / "other"), "symbolic links"), (os.mkfifo, "isn't a regular file"),
            (Path.mkdir, "isn't a regular file"), (link, "isn't marked"), (lambda path: None, "has no text"),
        ):
            note = self.leave()
            self.assertEqual(len(self.spool.take()), 1)
            self.text(note).unlink()
            make(self.text(note))
            self.refused(why)

    def test_a_text_with_a_second_name_is_the_same_text(self) -> None:
        """So nobody can have a note of somebody else refused by a link to it."""
        note = self.leave(number=1)
        os.link(self.text(note), self.room / "other")
        self.assertEqual(self.taken(), [1])
        # A text that stands where another one was left is refused.
        other = self.leave(number=2)
        self.text(other).unlink()
        os.link(self.room / "other", self.text(other))
        self.spool.remove(note.name)
        self.refused("isn't the one that was left")

    def test_an_altered_text_is_refused(self) -> None:
        note = self.leave(number=1)
        self.assertEqual(self.taken(), [1])
        with open(self.text(note), "ab") as file:
            file.write(b" ")
        self.refused("isn't the one that was left")

    def test_a_text_without_the_mark_of_its_mode_is_refused(self) -> None:
        for mode in (0o644, 0o1640, 0o1666):
            note = self.leave()
            self.assertEqual(len(self.spool.take()), 1)
            self.text(note).chmod(mode)
            self.refused("isn't marked")

    def test_a_name_that_leave_gives_to_none_is_refused(self) -> None:
        """Also one that is no text: no query of the journal could have it."""
        for name in ("other", "0" * 53, b"\xff".decode(errors="surrogateescape")):
            (self.path / name).mkdir()
            self.refused("no name that a note has")

    def test_a_long_note_is_refused(self) -> None:
        with self.assertRaises(Trouble):
            self.leave(text="x" * spool.MOST_BYTES)
        self.assertEqual(list(self.path.iterdir()), [])
        file = self.room / "text"
        text = self.body(file, number=1).ljust(spool.MOST_BYTES)
        self.written_as(file, text)
        self.assertEqual(self.taken(), [1])
        self.written_as(file, text + b" ")
        self.refused("too long")

    def written_as(self, file: Path, text: bytes) -> Path:
        """Makes a file the text of a note, without another one taking its place."""
        for path in self.path.iterdir():
            path.rename(file) if path.is_file() else path.rmdir()
        file.write_bytes(text)
        file.chmod(spool.MODE)
        note = self.path / f"{time.time_ns():020d}-{spool.hash_of(text)}"
        file.rename(self.text(note))
        note.mkdir()
        return note

    def test_what_is_no_json_is_refused(self) -> None:
        file = self.room / "text"
        good = self.body(file, number=1)
        self.written_as(file, good)
        self.assertEqual(self.taken(), [1])
        for text in (b"", b"[1", b"\xff", b"[" * 20000):
            self.written_as(file, text)
            self.refused("isn't JSON")
        self.written_as(file, b"7")
        self.refused("isn't an object")

    def test_who_leaves_too_many_is_told(self) -> None:
        """The host removes a part while it is written."""
        def removes(file: int) -> None:
            for part in self.path.glob(".part-*"):
                part.unlink()

        self.leave(number=1)
        with mock.patch("os.fsync", removes), self.assertRaisesRegex(Trouble, "too many notes"):
            self.leave(number=2)
        self.assertEqual((self.taken(), len(os.listdir(self.path))), ([1], 2))

    def test_a_note_that_was_interrupted_leaves_nothing(self) -> None:
        for name in ("os.fsync", "gate_host.spool.name_of_repository", "os.rename"):
            with mock.patch(name, side_effect=OSError(errno.EIO, "broken")), self.assertRaises(OSError):
                self.leave()
            self.assertEqual(list(self.path.iterdir()), [])

    @unittest.skipUnless(may_be_others(), "needs root and other users")
    def test_nobody_moves_a_folder_of_somebody_else(self) -> None:
        """On that rule of Linux all rests. A file can be moved by whoever may write the folder in which it lies."""
        reviewer, attacker = others()[:2]
        self.room.chmod(0o755)
        self.path.chmod(0o1733)
        folder = make_folder(self.room / "folder", attacker, 0o777)
        made = run_as(reviewer, "sh", "-ec", "touch file; mkdir fast; mkdir -m 777 loose", room=self.room, cwd=folder)
        self.assertEqual(made.returncode, 0, made.stderr)
        moved = {name: run_as(attacker, "mv", name, self.path, room=self.room, cwd=folder) for name in ("file", "fast", "loose")}
        self.assertEqual({name: ran.returncode for name, ran in moved.items()}, {"file": 0, "fast": 1, "loose": 0})
        self.assertIn("Permission denied", moved["fast"].stderr)
        self.assertEqual({it.name for it in self.path.iterdir()}, {"file", "loose"})

    @only_root
    def test_another_folder_in_its_place_ends_the_host(self) -> None:
        self.leave()
        self.assertEqual(len(self.spool.take()), 1)
        self.give(OTHER.pw_uid, self.path)
        with self.assertRaises(Trouble):
            self.spool.take()


class CopyTests(SpoolCase):
    """Notes of another repository, and copies of texts. Everything here is done by one user, so the folders can be moved."""

    def bring(self, note: Path) -> None:
        """Moves a note of another repository here."""
        for path in (self.text(note), note):
            path.rename(self.path / path.name)

    def test_a_note_of_another_repository_is_refused(self) -> None:
        self.leave(number=1)
        self.assertEqual(self.taken(), [1])
        evil = self.make_repository("evil.git")
        others = spool.Spool(evil, os.geteuid(), self.complaints.append)
        spool.leave_table(evil, {"number": 2})
        note = others.take()[0]
        self.bring(evil.spool / note.name)
        self.assertEqual((self.taken(), others.take()), ([1], []))
        self.assertIn("left for another repository", self.complaints[0])

    def test_a_copied_identity_does_not_help(self) -> None:
        evil = self.make_repository("evil.git")
        evil.identity.write_bytes(self.places.identity.read_bytes())
        spool.leave_table(evil, {"number": 2})
        self.assertEqual(len(spool.Spool(evil, os.geteuid(), self.complaints.append).take()), 1)
        self.bring(next(it for it in evil.spool.iterdir() if not it.name.startswith(".")))
        self.refused("left for another repository")

    def test_the_number_of_a_folder_does_not_help(self) -> None:
        """The number is used again when the folder has gone."""
        self.leave(number=1)
        self.assertEqual(self.taken(), [1])
        self.places.identity.write_text("7" * 32, encoding="utf-8")
        self.spool = spool.Spool(self.places, os.geteuid(), self.complaints.append)
        self.refused("left for another repository")

    def test_no_link_leads_to_the_spool(self) -> None:
        evil = self.make_repository("evil.git")
        spool.leave_table(evil, {})
        for path, target in ((evil.folder, self.places.folder), (evil.spool, self.places.spool)):
            path.rename(self.room / "aside")
            path.symlink_to(target)
            with self.assertRaisesRegex(Trouble, "no link"):
                spool.leave_table(evil, {})
            path.unlink()
            with self.assertRaisesRegex(Trouble, "No such file"):
                spool.leave_table(evil, {})
            path.touch()
            with self.assertRaisesRegex(Trouble, "Not a directory"):
                spool.leave_table(evil, {})
            path.unlink()
            (self.room / "aside").rename(path)
        self.assertEqual(list(self.path.iterdir()), [])

    def test_no_link_leads_to_another_repository(self) -> None:
        """A folder above it becomes a link after the path was looked up."""
        (self.room / "eve").mkdir()
        evil = self.make_repository("eve/project.git")
        spool.leave_table(evil, {})
        (self.room / "eve").rename(self.room / "aside")
        (self.room / "eve").symlink_to(self.room)
        self.assertTrue(evil.spool.samefile(self.path))
        with self.assertRaisesRegex(Trouble, "leads to another place"):
            spool.leave_table(evil, {})
        (self.room / "eve").unlink()
        (self.room / "aside").rename(self.room / "eve")
        evil.repository.rename(self.room / "aside")
        evil.repository.symlink_to(self.places.repository)
        with self.assertRaisesRegex(Trouble, "no link"):
            spool.leave_table(evil, {})
        self.assertEqual(list(self.path.iterdir()), [])

    def test_the_folder_that_is_open_names_the_repository(self) -> None:
        """The path may lead elsewhere between the two looks, and the note would be fit for where it doesn't lie."""
        evil, other = self.make_repository("evil.git"), os.open(self.places.repository, os.O_PATH)
        self.addCleanup(os.close, other)
        self.assertEqual(name_of_repository(evil, other).partition("-")[2], str(self.places.repository.stat().st_ino))
        with mock.patch("gate_host.spool.name_of_repository", wraps=name_of_repository) as named:
            spool.leave_table(evil, {})
        self.assertIsInstance(named.call_args[0][1], int)

    def unpacked(self, *command: str) -> None:
        """A text and its folder go through another program, and come back as they were. But the file is another one."""
        note = self.leave(number=1)
        self.assertEqual(self.taken(), [1])
        before = self.text(note).read_bytes(), self.text(note).lstat().st_mode
        (self.room / "source").mkdir()
        (self.room / "copy").mkdir()
        for path in (self.text(note), note):
            path.rename(self.room / "source" / path.name)
        ran = subprocess.run(command, cwd=self.room, capture_output=True, check=False)
        self.assertEqual(ran.returncode, 0, ran.stderr)
        for path in (self.text(note), note):
            (self.room / "copy" / path.name).rename(self.path / path.name)
        self.assertEqual((self.text(note).read_bytes(), self.text(note).lstat().st_mode), before)
        self.refused("is a copy")

    def test_what_tar_unpacks_is_no_note(self) -> None:
        self.unpacked("sh", "-ec", "tar -cpf x.tar -C source . && tar -xpf x.tar -C copy")

    def test_what_is_copied_is_no_note(self) -> None:
        self.unpacked("cp", "-a", "source/.", "copy")

    def test_a_copy_in_the_place_of_the_text_is_no_note(self) -> None:
        note = self.leave(number=1)
        self.assertEqual(self.taken(), [1])
        shutil.copy2(self.text(note), self.room / "copy")
        (self.room / "copy").rename(self.text(note))
        self.refused("is a copy")

    def test_a_copy_is_told_without_handles(self) -> None:
        """With the time of its birth, or at least with another inode."""
        for names in (("handle_of",), ("handle_of", "birth_of")):
            patched = [mock.patch.object(marks, name, lambda file: None) for name in names]
            for it in patched:
                it.start()
                self.addCleanup(it.stop)
            self.test_a_copy_in_the_place_of_the_text_is_no_note()


class FloodTests(SpoolCase):
    """Many names: what one user leaves keeps nobody else waiting."""

    def folders(self, count: int, user: int, mode: int = 0o755, start: int = 0) -> None:
        """Makes folders as notes have them, without texts. Their names come before those of all notes."""
        for number in range(start, start + count):
            path = self.path / f"{number:020d}-{'7' * 32}"
            os.mkdir(path)
            if mode != 0o755:
                os.chmod(path, mode)
            os.chown(path, user, -1)

    @only_root
    def test_a_round_has_some_notes_of_each(self) -> None:
        for number in range(25):
            self.leave(OTHER.pw_uid, number=number)
        for number in range(30, 33):
            self.leave(THIRD.pw_uid, number=number)
        taken = []
        for due, has_more in (([*range(10), 30, 31, 32], True), ([*range(10, 20)], True), ([*range(20, 25)], False), ([], False)):
            notes = self.spool.take()
            self.assertEqual(([note.body["number"] for note in notes], self.spool.has_more), (due, has_more))
            self.assertEqual(self.spool.waiting, {person(OTHER.pw_name)} if has_more else set())
            taken += notes
            for note in notes:
                self.spool.remove(note.name)
        self.assertEqual(len(taken), 28)
        self.assertEqual((list(self.path.iterdir()), self.complaints), ([], []))

    def test_the_owner_has_a_limit_too(self) -> None:
        for number in range(5):
            self.leave(number=number)
        with mock.patch.object(spool, "MOST_OF_OWNER", 3), mock.patch.object(spool, "MOST_WAITING", 2):
            self.assertEqual((self.taken(), self.spool.has_more), ([0, 1, 2], True))
        self.assertEqual((self.taken(), self.spool.has_more), ([0, 1, 2, 3, 4], False))

    @only_root
    def test_what_is_too_much_is_removed_unread(self) -> None:
        for number in range(8):
            self.leave(OTHER.pw_uid, number=number)
        for number in range(3):
            self.leave(THIRD.pw_uid, number=10 + number)
        with mock.patch.object(spool, "MOST_WAITING", 5):
            self.assertEqual(sorted(self.taken()), [*range(8), 10, 11, 12])
        self.assertEqual(len(self.complaints), 1)
        self.assertIn(f"these were removed unread: 3 of {person(OTHER.pw_name)}", self.complaints[0])
        self.assertEqual(sorted(self.taken()), [0, 1, 2, 3, 4, 10, 11, 12])
        self.assertEqual(len(list(self.path.iterdir())), 16)

    @only_root
    def test_of_parts_the_oldest_go(self) -> None:
        self.leave(OTHER.pw_uid, number=1)
        for number in range(6):
            part = self.path / f".part-{9 - number}"
            part.touch()
            self.give(OTHER.pw_uid, part)
            time.sleep(0.02)
        with mock.patch.object(spool, "MOST_WAITING", 4):
            self.assertEqual(self.taken(), [1])
        self.assertEqual({it.name for it in self.path.glob(".part*")}, {".part-6", ".part-5", ".part-4"})
        self.assertIn(f"3 of {person(OTHER.pw_name)}", self.complaints[0])

    @only_root
    def test_a_flood_keeps_nobody_waiting(self) -> None:
        self.leave(THIRD.pw_uid, number=1)
        self.assertEqual(self.taken(), [1])
        self.folders(20_000, OTHER.pw_uid)
        self.assertEqual(self.taken(), [1])
        # The time of the processor alone, since others may keep it busy.
        took = []
        for _ in range(5):
            start = time.process_time()
            self.assertEqual(self.taken(), [1])
            took.append(time.process_time() - start)
        self.assertLess(min(took), 1)
        self.until_few(spool.MOST_WAITING + 2)
        self.assertEqual(self.taken(), [1])
        self.assertLessEqual(len(self.spool.seen), spool.MOST_WAITING + 2)

    def until_few(self, count: int) -> None:
        """Has the host look again and again, until few names are left."""
        late = time.monotonic() + 60
        while len(os.listdir(self.path)) > count:
            self.assertLess(time.monotonic(), late)
            self.spool.take()

    @only_root
    def test_nobody_is_harmed_by_what_others_move_here(self) -> None:
        """Others can move files of a user here, and folders that they may write. They don't count as names of notes."""
        with mock.patch.object(spool, "MOST_WAITING", 20), mock.patch.object(spool, "SECONDS_FOR_REMOVING", 0.001):
            self.folders(400, OTHER.pw_uid, 0o777)
            for number in range(400, 800):
                path = self.path / f"{number:020d}-{'7' * 32}"
                path.touch()
                self.give(OTHER.pw_uid, path)
            self.leave(OTHER.pw_uid, number=1)
            self.assertEqual(self.taken(), [1])
            self.assertGreater(len(os.listdir(self.path)), 100)
            self.until_few(2)
            self.assertEqual(self.taken(), [1])

    @only_root
    def test_users_without_names_are_one_crowd(self) -> None:
        for user in range(2_000_000_000, 2_000_000_050):
            self.folders(1, user, start=user)
        self.leave(OTHER.pw_uid, number=1)
        with mock.patch.object(self.spool, "read", wraps=self.spool.read) as read:
            self.assertEqual(self.taken(), [1])
        self.assertEqual((read.call_count, len(os.listdir(self.path)), len(self.complaints)), (1, 2, 1))
        self.taken()
        self.assertEqual(set(self.spool.people), {OTHER.pw_uid})

    def test_a_round_ends_in_time(self) -> None:
        """What there is no time for is done in the next rounds."""
        for number in range(40):
            (self.path / f"junk-{number}").touch()
        with mock.patch.object(spool, "SECONDS_FOR_LOOKING", -1):
            self.leave(number=1)
            self.assertEqual((self.taken(), self.spool.has_more), ([], True))
        with mock.patch.object(spool, "SECONDS_FOR_REMOVING", -1):
            self.assertEqual((self.taken(), self.spool.has_more), ([1], False))
        self.assertEqual(len(os.listdir(self.path)), 42)
        self.assertEqual((self.taken(), len(os.listdir(self.path))), ([1], 2))
        self.assertEqual(len(self.complaints), 1)
        self.assertIn("40 in the spool", self.complaints[0])

    def test_no_more_names_are_listed_than_fit(self) -> None:
        for number in range(10):
            self.leave(number=number)
        with mock.patch.object(spool, "MOST_LISTED", 8):
            self.assertLess(len(self.taken()), 9)
            self.assertTrue(self.spool.has_more)
            # A text whose folder wasn't listed isn't taken for one that was given up.
            with mock.patch("time.time", lambda: time.time_ns() / 1e9 + 2 * spool.SECONDS_FOR_PART):
                self.spool.seen.clear()
                self.spool.take()
        self.assertEqual(len(os.listdir(self.path)), 20)
        self.assertEqual(self.taken(), [*range(10)])

    def test_each_name_is_looked_at_once(self) -> None:
        for number in range(20):
            (self.path / f".part-{number}").touch()
        with mock.patch("os.lstat", wraps=os.lstat) as looked:
            self.spool.take()
            self.assertEqual(looked.call_count, 20)
            self.spool.take()
            self.assertEqual(looked.call_count, 20)
        self.assertEqual(len(self.spool.seen), 20)
        for path in self.path.iterdir():
            path.unlink()
        self.spool.take()
        self.assertEqual((self.spool.seen, self.spool.people), ({}, {}))


class PartTests(SpoolCase):
    """Names that begin with a dot, and what can't be removed."""

    def later(self) -> mock._patch:
        return mock.patch("time.time", lambda: time.time_ns() / 1e9 + 2 * spool.SECONDS_FOR_PART)

    def test_a_part_stays_until_it_is_old(self) -> None:
        for make in (Path.touch, Path.mkdir, os.mkfifo, lambda path: path.symlink_to("/")):
            part = self.path / ".part"
            make(part)
            self.assertEqual(self.spool.take(), [])
            self.assertTrue(os.path.lexists(part))
            with self.later():
                self.assertEqual(self.spool.take(), [])
            self.assertFalse(os.path.lexists(part))
        self.assertEqual(self.complaints, [])

    def test_a_text_stays_as_long_as_its_folder(self) -> None:
        """Also if it was seen first without it."""
        note = self.leave(number=1)
        note.rmdir()
        self.assertEqual(self.taken(), [])
        self.assertEqual(set(self.spool.seen), {f".{note.name}"})
        note.mkdir()
        with self.later():
            self.assertEqual(self.taken(), [1])
            self.assertTrue(self.text(note).exists())
            note.rmdir()
            self.assertEqual(self.taken(), [])
        self.assertEqual(list(self.path.iterdir()), [])

    def test_a_part_that_becomes_a_note_meanwhile_stays(self) -> None:
        note = self.leave(number=1)
        note.rmdir()
        listed = spool.names_in
        with self.later(), mock.patch("gate_host.spool.names_in", lambda folder: (listed(folder), note.mkdir())[0]):
            self.assertEqual(self.taken(), [])
        self.assertEqual(self.taken(), [1])

    def test_an_empty_folder_is_removed(self) -> None:
        (self.path / "folder").mkdir()
        self.refused("no name that a note has")

    def test_a_folder_with_something_in_it_stands_in_nobodys_way(self) -> None:
        (self.path / "000" / "x").mkdir(parents=True)
        (self.path / ".part" / "x").mkdir(parents=True)
        self.leave(number=1)
        files = len(os.listdir("/proc/self/fd"))
        with self.later():
            for _ in range(3):
                self.assertEqual(self.taken(), [1])
        self.assertEqual(len(self.complaints), 2, self.complaints)
        self.assertIn("can't be removed", self.complaints[1])
        self.assertEqual(len(os.listdir("/proc/self/fd")), files)
        self.assertEqual((self.spool.stuck, len(self.spool.seen)), ({"000", ".part"}, 1))
        shutil.rmtree(self.path / "000")
        self.assertEqual(self.taken(), [1])
        self.assertEqual(self.spool.stuck, {".part"})

    def test_a_note_that_cannot_be_removed_is_passed_over(self) -> None:
        note = self.leave(number=1)
        (note / "x").mkdir()
        self.assertEqual(self.taken(), [1])
        self.spool.remove(note.name)
        self.assertEqual(len(self.complaints), 1)
        self.assertEqual((self.taken(), len(self.complaints)), ([], 1))


if __name__ == "__main__":
    unittest.main()
