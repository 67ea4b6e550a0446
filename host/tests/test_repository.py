"""Tests of what the host asks of git: fetches, merges and moves of branches."""
import os
import subprocess
import sys
import threading
import time
import unittest
from pathlib import Path
from unittest import mock

sys.path.insert(0, str(Path(__file__).resolve().parent.parent))

from folders import InHistory, titled  # noqa: E402
from gate_host.core.orders import Land  # noqa: E402
from gate_host.git import GitFailed  # noqa: E402
from gate_host.places import Places  # noqa: E402
from gate_host.repository import KEPT, Repository  # noqa: E402


class MergeTests(InHistory):
    def test_a_batch_becomes_one_commit_which_is_the_same_when_it_is_made_again(self):
        made = self.made(self.one, self.two)
        self.assertEqual(self.repository.ask("rev-list", "--parents", "-n", "1", made).split(), [made, self.base, self.one, self.two])
        self.assertEqual(self.repository.ask("ls-tree", "--name-only", made).split(), ["a", "b", "c"])
        self.assertEqual(self.made(self.one, self.two), made)
        self.assertNotEqual(self.made(self.two, self.one), made)

    def test_the_base_is_the_one_that_is_named(self):
        self.git("update-ref", "refs/heads/main", self.two)
        self.assertEqual(self.repository.ask("ls-tree", "--name-only", self.made(self.one)).split(), ["a", "b"])

    def test_what_the_base_has_already_becomes_a_commit_too(self):
        self.assertNotIn(self.made(self.base), (None, self.base))

    def test_conflicts(self):
        found = self.repository.merge_batch(self.order(self.one, self.clash), 5, titled)
        self.assertEqual((found.commit, found.conflicting, found.why), (None, 2, "both change b"))
        found = self.repository.merge_batch(self.order(self.alone), 5, titled)
        self.assertEqual((found.commit, found.conflicting, found.why), (None, 1, "it has no commit in common with the main branch"))

    def test_a_missing_head_is_no_conflict(self):
        with self.assertRaisesRegex(GitFailed, f"{'1' * 40} can't be read whole"):
            self.made("1" * 40)

    def test_a_merge_sees_no_other_object_than_the_one_that_is_named(self):
        """By whatever git would take another one for it."""
        due = self.made(self.one)
        self.git("replace", self.one, self.two)
        (self.path / "info").mkdir(exist_ok=True)
        (self.path / "info/grafts").write_text(f"{self.two}\n", encoding="utf-8")
        for name in ("GIT_REPLACE_REF_BASE", "GIT_GRAFT_FILE", "GIT_DIR", "GIT_CONFIG_PARAMETERS", "GIT_OBJECT_DIRECTORY"):
            with mock.patch.dict(os.environ, {name: str(self.path)}):
                self.assertEqual(self.made(self.one), due, name)
        fresh = Places(self.path)
        fresh.mirror.rename(self.room / "mirror")
        self.assertEqual(Repository(fresh, "main").merge_batch(self.order(self.one), 5, titled).commit, due)

    def test_a_file_that_was_altered_is_not_fetched(self):
        blob = self.git("rev-parse", f"{self.one}:b")
        other = self.git("hash-object", "-w", "--stdin", given="other\n")
        place = self.path / "objects" / blob[:2] / blob[2:]
        place.unlink()
        place.write_bytes((self.path / "objects" / other[:2] / other[2:]).read_bytes())
        self.assertEqual(list(self.repository.fetch({"change/1": self.one, "change/2": self.two})), ["change/1"])
        self.assertTrue(self.repository.has_fetched("change/2", self.two))

    def test_what_is_forgotten_stays(self):
        self.assertEqual(self.repository.fetch({"change/1": self.one}), {})
        self.repository.forget(["change/1", "change/2"])
        self.assertFalse(self.repository.has_fetched("change/1", self.one))
        self.assertEqual(self.repository.ask("cat-file", "-t", self.one), "commit\n")

    def test_packs_are_put_together(self):
        self.repository.fetch({"change/1": self.one, "change/2": self.two})
        self.repository.tidy(lambda name: True)
        self.assertNotIn("count: 0\n", self.repository.ask("count-objects", "-v"))
        with mock.patch("gate_host.repository.MOST_LOOSE", 0):
            # What has no name is put into a pack if there is one already.
            for _ in range(2):
                self.repository.tidy(lambda name: name == "change/1")
        self.assertIn("count: 0\n", self.repository.ask("count-objects", "-v"))
        for commit, is_named in ((self.one, True), (self.two, False)):
            self.assertEqual(self.repository.ask("cat-file", "-t", commit), "commit\n")
            self.assertEqual(self.repository.has_fetched("change/1", commit) or self.repository.has_fetched("change/2", commit), is_named)

    def test_texts(self):
        self.repository.fetch({"main": self.base})
        self.assertEqual(self.repository.text_at(self.base, "a", 2), "1\n")
        self.assertIsNone(self.repository.text_at(self.base, "a", 1))
        self.assertIsNone(self.repository.text_at(self.base, "bors.toml", 9))
        folder = self.commit_of_folder("bors.toml")
        self.repository.fetch({"main": folder})
        self.assertIsNone(self.repository.text_at(folder, "bors.toml", 9))

    def commit_of_folder(self, name):
        tree = self.git("mktree", given=f"040000 tree {self.git('rev-parse', f'{self.base}^{{tree}}')}\t{name}\n")
        return self.git("-c", "user.name=x", "-c", "user.email=x", "commit-tree", tree, "-m", "x")


class MoveTests(InHistory):
    def test_branches_have_any_name_that_git_takes(self):
        for name in ("refs/heads/a\u2028b", "refs/heads/a\u0085b"):
            self.git("update-ref", name, self.one)
            self.assertEqual(self.repository.branches()[name], self.one)

    def test_staging_keeps_what_is_somebody_elses(self):
        made = self.made(self.one)
        self.assertIsNone(self.repository.stage("staging", made, None, True))
        self.assertEqual(self.git("rev-parse", "staging"), made)
        again = self.made(self.two)
        self.assertIsNone(self.repository.stage("staging", again, made, True))
        self.git("update-ref", "refs/heads/staging", self.one)
        self.assertEqual(self.repository.stage("staging", made, self.one, False), f"{KEPT}staging/{self.one}")
        self.assertEqual(self.git("rev-parse", f"{KEPT}staging/{self.one}"), self.one)
        with self.assertRaisesRegex(GitFailed, "refs/heads/staging can't be moved"):
            self.repository.stage("staging", again, self.two, True)

    def test_landing_compares(self):
        made = self.made(self.one)
        land = Land(3, self.base, made)
        self.git("update-ref", "refs/heads/main", self.two)
        self.assertFalse(self.repository.land(land))
        self.assertEqual(self.git("rev-parse", "main"), self.two)
        self.git("update-ref", "refs/heads/main", self.base)
        self.assertTrue(self.repository.land(land))
        # The second attempt fails, and the look says that the first one didn't.
        self.assertTrue(self.repository.land(land))
        self.git("update-ref", "refs/heads/main", self.commit({"a": "5\n"}, made))
        self.assertTrue(self.repository.land(land))
        self.git("update-ref", "-d", "refs/heads/main")
        self.assertFalse(self.repository.land(land))

    def test_landing_moves_the_branch_from_no_older_commit_than_the_base(self):
        """A push that compares nothing would take it forward from there."""
        before, self.base = self.base, self.commit({"a": "2\n"}, self.base)
        made = self.made(self.one)
        self.assertFalse(self.repository.land(Land(3, self.base, made)))
        self.assertEqual(self.git("rev-parse", "main"), before)

    def test_a_branch_that_is_another_name_of_one_is_not_moved(self):
        made = self.made(self.one)
        self.git("symbolic-ref", "refs/heads/staging", "refs/heads/main")
        with self.assertRaisesRegex(GitFailed, "refs/heads/staging is another name of refs/heads/main"):
            self.repository.stage("staging", made, self.base, True)
        self.git("symbolic-ref", "--delete", "refs/heads/staging")
        self.git("update-ref", "refs/heads/other", self.base)
        self.git("update-ref", "-d", "refs/heads/main")
        self.git("symbolic-ref", "refs/heads/main", "refs/heads/other")
        with self.assertRaisesRegex(GitFailed, "refs/heads/main is another name of refs/heads/other"):
            self.repository.land(Land(3, self.base, made))
        self.assertEqual(self.git("rev-parse", "other"), self.base)

    def test_locks_that_were_left_are_removed(self):
        self.repository.fetch({"change/1": self.one})
        for name in ("refs/gate/change/1.lock", "packed-refs.lock"):
            (self.places.mirror / name).touch()
        self.repository.remove_locks()
        self.assertEqual([it for it in self.places.mirror.rglob("*.lock")], [])

    def test_no_log_is_written_if_others_may_put_links_there(self):
        self.git("config", "core.logAllRefUpdates", "true")
        secret = self.room / "secret"
        secret.touch()
        (self.path / "logs/refs/heads").mkdir(parents=True, exist_ok=True)
        (self.path / "logs/refs/heads/staging").symlink_to(secret)
        (self.path / "refs").chmod(0o775)
        Repository(self.places, "main").stage("staging", self.made(self.one), None, True)
        self.assertEqual(secret.read_text(encoding="utf-8"), "")

    def test_a_commit_that_is_gone_is_refused_once_the_main_branch_is_elsewhere(self):
        self.git("update-ref", "refs/heads/main", self.two)
        self.assertFalse(self.repository.land(Land(3, self.base, "7" * 40)))

    def test_a_landing_that_git_cannot_do_is_no_refusal(self):
        land = Land(3, self.base, self.made(self.one))
        lock = self.path / "refs/heads/main.lock"
        lock.touch()
        with self.assertRaisesRegex(GitFailed, "refs/heads/main can't be moved: .*main.lock"):
            self.repository.land(land)
        lock.unlink()
        self.assertTrue(self.repository.land(land))

    def test_no_landing_is_judged_while_a_git_of_before_runs(self):
        """A git that the host has started keeps the lock, whatever becomes of the host."""
        land = Land(3, self.base, self.made(self.one))
        script = '#!/bin/sh\n[ "$1" != push ] || { touch "$0.began"; sleep 1; }\nPATH=$REST\nexec git "$@"\n'
        (self.room / "git").write_text(script, encoding="utf-8")
        (self.room / "git").chmod(0o755)
        with mock.patch.dict(os.environ, PATH=f"{self.room}:{os.environ['PATH']}", REST=os.environ["PATH"]):
            first = threading.Thread(target=self.repository.land, args=(land,))
            first.start()
            while not (self.room / "git.began").exists():
                time.sleep(0.01)
            with self.assertRaisesRegex(GitFailed, "may still move refs/heads/main"):
                self.repository.land(land)
            first.join()
        self.assertTrue(self.repository.land(land))

    def test_which_room_a_commit_needs(self):
        of_base = self.git("rev-parse", f"{self.base}^{{tree}}")
        lines = "".join(f"{kind} {name}\t{path}\n" for kind, name, path in (
            ("040000 tree", of_base, "folder"), ("100644 blob", self.git("rev-parse", f"{self.base}:a"), "file"),
        ))
        nested = self.git("-c", "user.name=x", "-c", "user.email=x", "commit-tree", self.git("mktree", given=lines), "-m", "x")
        for commit, due in (
            (self.commit({"a": ""}), 8192), (self.commit({"a": "x" * 4095, "b": "x" * 4096}), 8192 + 12288), (self.commit({}), 0),
            (nested, 2 * 8192),
        ):
            self.repository.must_have("x", commit)
            self.assertEqual(self.repository.room_for(commit), due)
        self.assertEqual(self.repository.room_for("1" * 40), 0)

    def test_a_file_is_added_to_main(self):
        made = self.repository.commit_with("bors.toml", "x", self.base)
        self.repository.move_main(made, self.base)
        self.assertEqual(self.git("rev-list", "--parents", "-n", "1", "main").split(), [made, self.base])
        self.assertEqual([self.repository.text_at(made, name, 9) for name in ("a", "bors.toml")], ["1\n", "x"])
        with self.assertRaisesRegex(GitFailed, "can't be moved"):
            self.repository.move_main(self.repository.commit_with("x", "y", self.base), self.base)

    def test_a_branch_gets_another_name(self):
        self.git("update-ref", "refs/heads/staging", self.one)
        self.git("pack-refs", "--all")
        self.repository.rename("refs/heads/staging", "refs/heads/other")
        self.assertEqual(self.repository.branches(), {"refs/heads/main": self.base, "refs/heads/other": self.one})

    def test_what_is_shared_stays_shared(self):
        self.git("config", "core.sharedRepository", "group")
        old = os.umask(0o022)
        self.addCleanup(os.umask, old)
        repository = Repository(self.places, "main")
        repository.stage("staging", self.made(self.one), None, True)
        self.assertEqual((self.path / "refs/heads/staging").stat().st_mode & 0o060, 0o060)

    def test_moves_are_logged_if_the_repository_says_so(self):
        for value, is_logged in (("false", False), ("true", True)):
            self.git("config", "core.logAllRefUpdates", value)
            Repository(self.places, "main").stage("staging", self.made(self.one), None, True)
            self.assertEqual((self.path / "logs/refs/heads/staging").exists(), is_logged)
            self.git("update-ref", "-d", "refs/heads/staging")

    def test_a_clone_has_no_way_back(self):
        made, clone = self.made(self.one), self.room / "clone"
        self.assertIsNone(self.repository.check_out(made, clone, 60))
        self.assertEqual(sorted(it.name for it in clone.iterdir()), [".git", "a", "b"])
        for arguments in (("update-ref", "refs/heads/main", made), ("tag", "x"), ("config", "x.y", "z"), ("gc", "--quiet")):
            subprocess.run(["git", "-C", str(clone), *arguments], check=True, timeout=30)
        self.assertEqual(subprocess.run(["git", "-C", str(clone), "remote"], capture_output=True, timeout=30).stdout, b"")
        self.assertEqual(self.git("rev-parse", "main"), self.base)
        self.assertEqual(self.git("for-each-ref", "--format=%(refname)"), "refs/heads/main")
        self.assertEqual(self.repository.ask("cat-file", "-t", made), "commit\n")
        self.assertIn("1111", self.repository.check_out("1" * 40, self.room / "other", 60))


if __name__ == "__main__":
    unittest.main()
