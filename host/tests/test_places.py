"""Tests of where the host keeps what it has, and of whom it believes."""
import os
import pwd
import sys
import time
import unittest
from pathlib import Path
from unittest import mock

sys.path.insert(0, str(Path(__file__).resolve().parent.parent))

from folders import InFolder, InHistory, InRepository  # noqa: E402
from gate_host.places import (  # noqa: E402
    Places, Trouble, make_identity, must_be_safe, name_of_repository, name_of_user, person, person_here, pointed_to, trusted_text,
)

MYSELF = name_of_user(os.geteuid())
# A user of the system who isn't the one that runs the tests.
OTHER = next(it for it in pwd.getpwall() if it.pw_uid != os.geteuid() and person(it.pw_name))


class PlacesTests(InFolder):
    def test_a_file_that_others_may_write_is_refused(self):
        path = self.room / "roles"
        path.write_text("rosa reviewer\n", encoding="utf-8")
        self.assertEqual(trusted_text(path, os.geteuid()), "rosa reviewer\n")
        for mode in (0o664, 0o646):
            path.chmod(mode)
            with self.assertRaises(Trouble):
                trusted_text(path, os.geteuid())
        path.chmod(0o644)
        with self.assertRaises(Trouble):
            trusted_text(path, OTHER.pw_uid)
        (self.room / "link").symlink_to(path)
        os.mkfifo(self.room / "pipe")
        for name in ("link", "pipe", "none"):
            with self.assertRaises(Trouble):
                trusted_text(self.room / name, os.geteuid())

    def test_folders_that_others_may_write_are_refused(self):
        places = Places(self.room)
        for folder in (places.folder, places.records, places.reports, places.spool):
            folder.mkdir()
        must_be_safe(places)
        places.spool.chmod(0o777)
        with self.assertRaises(Trouble):
            must_be_safe(places)
        places.spool.chmod(0o1733)
        must_be_safe(places)
        places.folder.chmod(0o775)
        with self.assertRaises(Trouble):
            must_be_safe(places)
        places.folder.chmod(0o755)
        self.room.chmod(0o775)
        with self.assertRaisesRegex(Trouble, "could exchange what is in it"):
            must_be_safe(places)
        self.room.chmod(0o1775)
        must_be_safe(places)
        (self.room / "objects/info").mkdir(parents=True)
        for name, mode in (("objects", 0o775), ("objects/info", 0o775)):
            (self.room / name).chmod(mode)
            with self.assertRaisesRegex(Trouble, "could exchange what is in it"):
                must_be_safe(places)
            (self.room / name).chmod(0o755)
        (self.room / "objects").chmod(0o1775)
        must_be_safe(places)
        places.records.rename(self.room / "elsewhere")
        places.records.symlink_to(self.room / "elsewhere")
        with self.assertRaises(Trouble):
            must_be_safe(places)

    def test_the_variable_of_gitolite_counts_for_the_owner_alone(self):
        with mock.patch.dict(os.environ, GL_USER="Rosa"):
            self.assertEqual(person_here(os.geteuid()), "rosa")
            self.assertEqual(person_here(OTHER.pw_uid), MYSELF)

    def test_names(self):
        due_of = {"Rosa": "rosa", "a.b-c_[1]": "a.b-c_[1]", "": None, "ro sa": None, "x" * 65: None, "rosá": None}
        for name, due in due_of.items():
            self.assertEqual(person(name), due)


class IdentityTests(InRepository):
    def test_it_is_made_once(self):
        self.places.folder.mkdir()
        make_identity(self.places)
        first = self.places.identity.read_bytes()
        make_identity(self.places)
        self.assertEqual(self.places.identity.read_bytes(), first)
        self.assertEqual(self.places.identity.stat().st_mode & 0o777, 0o644)
        self.assertLess(abs(self.places.identity.stat().st_mtime - time.time()), 60)


class NameTests(InFolder):
    """By what notes name a repository."""

    def make_repository(self, name: str) -> Places:
        places = Places(self.room / name)
        places.spool.mkdir(parents=True)
        make_identity(places)
        return places

    def test_a_repository_has_one_name(self) -> None:
        places = self.make_repository("project.git")
        name = name_of_repository(places)
        make_identity(places)
        self.assertEqual(name_of_repository(places), name)
        self.assertRegex(name, f"^[0-9a-f]{{32}}-{places.repository.stat().st_ino}$")
        self.assertEqual(places.identity.stat().st_mode & 0o7777, 0o644)
        self.assertNotEqual(name_of_repository(self.make_repository("other.git")), name)
        self.assertEqual({it.name for it in places.folder.iterdir()}, {"identity", "spool"})

    def test_what_is_no_identifier_is_refused(self) -> None:
        places = self.make_repository("project.git")
        name_of_repository(places)
        places.identity.chmod(0o664)
        with self.assertRaisesRegex(Trouble, "nobody else may write"):
            name_of_repository(places)
        places.identity.chmod(0o644)
        for text in ("", "7" * 31, "x" * 32, "7" * 32 + "\n7"):
            places.identity.write_text(text, encoding="utf-8")
            with self.assertRaisesRegex(Trouble, "32 hexadecimal digits"):
                name_of_repository(places)
        places.identity.unlink()
        with self.assertRaisesRegex(Trouble, "gate-host init .* makes it"):
            name_of_repository(places)


class ReferenceTests(InHistory):
    def test_where_references_point(self):
        self.assertEqual(pointed_to(self.path, "HEAD"), (self.base, "refs/heads/main"))
        self.assertEqual(pointed_to(self.path, "refs/heads/none"), (None, "refs/heads/none"))
        self.git("pack-refs", "--all")
        self.assertEqual(pointed_to(self.path, "refs/heads/main"), (self.base, "refs/heads/main"))
        self.git("symbolic-ref", "refs/heads/a", "refs/heads/b")
        self.git("symbolic-ref", "refs/heads/b", "refs/heads/a")
        self.assertIsNone(pointed_to(self.path, "refs/heads/a")[0])
        os.mkfifo(self.path / "refs/heads/pipe")
        self.assertEqual(pointed_to(self.path, "refs/heads/pipe"), (None, "refs/heads/pipe"))
        (self.path / "refs/heads/pipe").unlink()
        (self.path / "refs/heads/odd").write_text("x" * 40, encoding="utf-8")
        self.assertEqual(pointed_to(self.path, "refs/heads/odd"), (None, "refs/heads/odd"))


if __name__ == "__main__":
    unittest.main()
