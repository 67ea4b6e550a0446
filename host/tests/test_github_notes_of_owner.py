"""Tests of what the owner says on this machine of a repository on GitHub: that a move is accepted, or the queue frozen or thawed."""
import os
import unittest
from types import SimpleNamespace
from unittest import mock

from folders import InFolder
from gate_host.core.notes import AcceptanceLeft, Comment, CommentLeft, Freezing, ReportLeft, Thawing
from gate_host.places import Places, make_identity, name_of_user
from gate_host.spool import Spool, leave

try:
    import httpx
except ImportError:
    httpx = None

A = "a" * 40
MYSELF = name_of_user(os.geteuid())
SAID = Comment("comment-5", "rosa", 7, "bors r+", None, 9)


class Pulls:
    """Pull requests, of which one has a comment that isn't taken yet."""

    def __init__(self):
        self.removed = []

    def look(self):
        return "a look"

    def take(self):
        return [SAID]

    def remove(self, name):
        self.removed.append(name)


@unittest.skipIf(httpx is None, "httpx isn't installed")
class NotesOfOwnerTests(InFolder):
    def test_an_acceptance_counts_and_no_other_note(self):
        from gate_host.github.notes_of_owner import WithNotesOfOwner
        places = Places(self.room.resolve() / "project.git")
        places.spool.mkdir(parents=True)
        make_identity(places)
        for left in (CommentLeft(MYSELF, 7, "bors r+", A), AcceptanceLeft(MYSELF, A), ReportLeft(MYSELF, A, "build", "success", "")):
            leave(places, left)
        pulls, complain = Pulls(), mock.Mock()
        source = WithNotesOfOwner(pulls, Spool(places, os.geteuid(), complain), MYSELF)
        with mock.patch("gate_host.github.notes_of_owner.complain", complain):
            accepted, said = source.take()
        self.assertEqual((accepted.person, accepted.commit, said, source.look()), (MYSELF, A, SAID, "a look"))
        self.assertEqual([call[0][0] for call in complain.call_args_list], [
            f"a note of {MYSELF} doesn't count: what is said of changes is said on GitHub"] * 2)
        for note in (accepted, said):
            source.remove(note.note)
        self.assertEqual((source.take(), pulls.removed, os.listdir(places.spool)), ([SAID], ["comment-5"], []))

    def test_the_owner_freezes_the_queue_and_nobody_else(self):
        """A reviewer on GitHub may have the name of somebody else here."""
        from gate_host.github.notes_of_owner import WithNotesOfOwner
        left = [Freezing("n1", MYSELF, "a release"), Freezing("n2", "rosa", "none"), Thawing("n3", "rosa"), Thawing("n4", MYSELF)]
        spool, complain = mock.Mock(), mock.Mock()
        spool.take.return_value = [SimpleNamespace(said=it) for it in left]
        with mock.patch("gate_host.github.notes_of_owner.complain", complain):
            taken = WithNotesOfOwner(Pulls(), spool, MYSELF).take()
        self.assertEqual(taken, [left[0], left[3], SAID])
        self.assertEqual([call[0][0] for call in spool.remove.call_args_list], ["n2", "n3"])


if __name__ == "__main__":
    unittest.main()
