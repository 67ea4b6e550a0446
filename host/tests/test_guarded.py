"""Tests of the ports of a bare repository: what a look sees, and what becomes of orders."""
import shutil
import unittest
from types import SimpleNamespace
from unittest import mock

from folders import InHistory
from gate_host import guarded
from gate_host.core.facts import Conflicted, Merged
from gate_host.core.known import Batch, Known
from gate_host.core.orders import Land, Stage
from gate_host.git import GitFailed
from gate_host.guarded import BranchesAndNotes, Guarded
from gate_host.repository import Repository


class GuardedTests(InHistory):
    def setUp(self):
        super().setUp()
        self.guarded = Guarded(self.repository)
        patched = mock.patch.object(guarded, "complain")
        self.complain = patched.start()
        self.addCleanup(patched.stop)

    def batch(self, *heads, branch="staging"):
        return Batch("tick-1.0", Stage(3, branch, self.base, tuple(enumerate(heads, 1))), 5)

    def merged(self, *heads, branch="staging"):
        batch = self.batch(*heads, branch=branch)
        made = self.guarded.merge(batch.order, batch)
        return Batch(batch.order, batch.stage, batch.now, made.commit)

    def lose_mirror(self):
        shutil.rmtree(self.places.mirror)
        self.guarded = Guarded(Repository(self.places, "main"))

    def test_a_look(self):
        source = BranchesAndNotes(self.places, self.repository, SimpleNamespace(has_more=True))
        self.assertEqual((source.look().main, source.look().heads, source.look().in_way), (self.base, {}, []))
        for name, commit in (("change/7", self.one), ("change/x", self.one), ("staging/x", self.two)):
            self.git("update-ref", f"refs/heads/{name}", commit)
        self.git("symbolic-ref", "refs/heads/master", "refs/heads/main")
        (self.path / "commondir").write_text("/x\n", encoding="utf-8")
        seen = source.look()
        self.assertEqual((seen.main, seen.heads), (self.base, {7: self.one}))
        self.assertEqual([text.split(";")[0] for text in seen.in_way], [
            "refs/heads/staging/x is in the way of refs/heads/staging", f"{self.path}/commondir has git read another repository",
            "refs/heads/master is another name of refs/heads/main, and a push to it moves that",
        ])
        (self.path / "commondir").unlink()
        self.git("symbolic-ref", "--delete", "refs/heads/master")
        self.git("update-ref", "-d", "refs/heads/main")
        self.assertIsNone(source.look().main)

    def test_heads_that_can_not_come_are_named_by_their_changes(self):
        found = self.guarded.fetch({7: self.one, 8: "9" * 40})
        self.assertEqual((list(found), bool(found[8])), ([8], True))

    def test_the_settings_of_a_commit(self):
        with_file = self.commit({"bors.toml": 'status = ["x"]\n'}, self.base)
        self.git("update-ref", "refs/heads/main", with_file)
        self.assertEqual(self.guarded.settings_at(with_file, 99), 'status = ["x"]\n')
        self.assertIsNone(self.guarded.settings_at(with_file, 5))

    def test_a_merge_is_kept_and_a_conflict_is_told(self):
        batch = self.merged(self.one, self.two)
        self.assertTrue(self.repository.has_fetched("staged/staging", batch.commit))
        self.assertEqual(self.guarded.merge("tick-1.0", batch), Merged("tick-1.0", batch.commit))
        clash = self.batch(self.one, self.clash)
        self.assertEqual(self.guarded.merge("tick-1.0", clash), Conflicted("tick-1.0", 2, "both change b"))

    def test_the_branch_is_moved_to_the_merge_also_if_the_mirror_was_lost(self):
        batch = self.merged(self.one)
        self.lose_mirror()
        self.guarded.point(batch, Known())
        self.assertEqual(self.git("rev-parse", "staging"), batch.commit)
        self.lose_mirror()
        self.guarded.bring(batch)

    def test_the_merge_of_a_batch_is_put_on_its_own_branch_alone(self):
        for branch in ("trying", "staging"):
            batch = self.merged(self.one, branch=branch)
            self.guarded.point(batch, Known())
            self.assertEqual(self.repository.branches(), {"refs/heads/main": self.base, f"refs/heads/{branch}": batch.commit})
            self.git("update-ref", "-d", f"refs/heads/{branch}")

    def test_what_somebody_else_put_there_is_kept(self):
        batch = self.merged(self.one)
        self.git("update-ref", "refs/heads/staging", self.two)
        self.guarded.point(batch, Known())
        self.assertEqual(self.git("rev-parse", f"refs/gate/kept/staging/{self.two}"), self.two)
        self.complain.assert_called_once()
        # One that the host has made isn't.
        self.complain.reset_mock()
        self.git("update-ref", "refs/heads/staging", self.clash)
        self.guarded.point(batch, Known(made={self.clash}))
        self.assertNotIn(self.clash, self.git("for-each-ref", "refs/gate"))
        self.complain.assert_not_called()

    def test_another_commit_is_never_taken_for_the_merge(self):
        batch = self.merged(self.one)
        self.lose_mirror()
        other = Batch(batch.order, batch.stage, batch.now + 1, batch.commit)
        with self.assertRaises(GitFailed):
            self.guarded.bring(other)

    def test_a_landing(self):
        batch = self.merged(self.one)
        self.guarded.point(batch, Known())
        land = Land(3, self.base, batch.commit)
        self.assertTrue(self.guarded.land(land, batch))
        self.assertEqual(self.git("rev-parse", "main"), batch.commit)
        self.git("update-ref", "refs/heads/main", self.two)
        self.assertFalse(self.guarded.land(land, batch))

    def test_a_commit_that_can_not_come_matters_while_the_branch_is_at_the_base(self):
        batch = Batch("tick-1.0", self.batch(self.one).stage, 5, "9" * 40)
        with self.assertRaises(GitFailed):
            self.guarded.land(Land(3, self.base, "9" * 40), batch)
        self.git("update-ref", "refs/heads/main", self.two)
        self.assertFalse(self.guarded.land(Land(3, self.base, "9" * 40), batch))


if __name__ == "__main__":
    unittest.main()
