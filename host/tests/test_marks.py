"""Tests of the marks of files."""
import errno
import os
import sys
import unittest
from pathlib import Path
from types import SimpleNamespace
from typing import Callable, Tuple
from unittest import mock

sys.path.insert(0, str(Path(__file__).resolve().parent.parent))

from folders import InFolder  # noqa: E402
from gate_host import marks  # noqa: E402


class MarkTests(InFolder):
    def mark(self, name: str, flags: int = os.O_RDONLY) -> str:
        file = os.open(self.room / name, flags)
        try:
            return marks.mark_of(file)
        finally:
            os.close(file)

    def test_a_file_has_one_mark(self) -> None:
        for without in ((), ("handle_of",), ("handle_of", "birth_of")):
            for name in without:
                patched = mock.patch.object(marks, name, lambda file: None)
                patched.start()
                self.addCleanup(patched.stop)
            path = self.room / "file"
            path.touch()
            before = self.mark("file", os.O_WRONLY)
            path.write_text("text", encoding="utf-8")
            path.chmod(0o1644)
            path.rename(self.room / "other")
            self.assertEqual(self.mark("other"), before)
            path.touch()
            self.assertNotEqual(self.mark("file"), before)

    def test_a_number_that_comes_again_has_another_mark(self) -> None:
        """On some file systems a new file gets the number of the last one that was removed."""
        seen = set()
        for _ in range(20):
            (self.room / "file").touch()
            seen.add(self.mark("file"))
            (self.room / "file").unlink()
        if marks.mark_is_strong(self.room):
            self.assertEqual(len(seen), 20)

    def test_how_strong_marks_are(self) -> None:
        self.assertIsInstance(marks.mark_is_strong(self.room), bool)
        self.assertEqual(list(self.room.iterdir()), [])

        def handles(*rests: int) -> Callable[[int], Tuple[int, bytes]]:
            """Handles of a file system that puts these numbers behind the number of the inode."""
            left = list(rests)
            return lambda file: (1, os.fstat(file).st_ino.to_bytes(8, sys.byteorder) + left.pop().to_bytes(4, sys.byteorder))

        with mock.patch.object(marks, "handle_of", handles(5, 10 ** 6, 10 ** 8, 10 ** 9)):
            self.assertTrue(marks.mark_is_strong(self.room))
        for rests in ((7, 7, 7, 7), (1, 2, 3, 4), (9, 10 ** 6, 10 ** 8, 9)):
            with mock.patch.object(marks, "handle_of", handles(*rests)):
                self.assertFalse(marks.mark_is_strong(self.room))
        with mock.patch.object(marks, "handle_of", lambda file: None):
            self.assertFalse(marks.mark_is_strong(self.room))

    def test_what_the_system_may_say(self) -> None:
        (self.room / "file").touch()
        file = os.open(self.room / "file", os.O_RDONLY)
        self.addCleanup(os.close, file)

        def system(error: int) -> SimpleNamespace:
            def ask(*_) -> int:
                marks.ctypes.set_errno(error)
                return -1
            return SimpleNamespace(name_to_handle_at=ask, statx=ask)

        for error in marks.NO_HANDLES:
            with mock.patch.object(marks, "LIBC", system(error)):
                self.assertEqual(marks.mark_of(file), f"inode {os.fstat(file).st_ino}")
            with mock.patch.object(marks, "LIBC", system(error)), mock.patch.object(marks, "birth_of", lambda file: "5.000000007"):
                self.assertEqual(marks.mark_of(file), f"inode {os.fstat(file).st_ino} made at 5.000000007")
        with mock.patch.object(marks, "handle_of", lambda file: (1, b"\x07\xff")):
            self.assertEqual(marks.mark_of(file), "handle 1 07ff")
        with mock.patch.object(marks, "LIBC", SimpleNamespace()):
            self.assertEqual(marks.mark_of(file), f"inode {os.fstat(file).st_ino}")
        with mock.patch.object(marks, "LIBC", system(errno.ENOMEM)), self.assertRaises(OSError):
            marks.mark_of(file)


if __name__ == "__main__":
    unittest.main()
