"""A host of a repository on GitHub, over the server for tests."""
import unittest

try:
    import httpx
except ImportError:
    httpx = None

from github_stories import WithHost


@unittest.skipIf(httpx is None, "httpx isn't installed")
class HostTests(WithHost):
    def test_changes_land_and_the_others_are_told(self):
        fork = self.people.fork("eve", self.project)
        good = self.people.propose(self.project, "otto", "good", {"good": "1\n"}, "A good change")
        bad = self.people.propose(self.project, "otto", "bad", {"check": "bad\n"}, "A bad change")
        forked = self.people.propose(self.project, "eve", "x", {"forked": "1\n"}, "A change of a fork", fork=fork)
        self.start_receiver()
        self.start()
        self.until("the host has looked", lambda: (self.folder / "gate/reports/change-3").exists())
        time_of_heads = max(pull.updated_at for pull in (good, bad, forked))
        self.until("a second has gone by", lambda: self.hub.world.clock.now() > time_of_heads + 1.1)
        self.people.comment(good, "otto", "bors r+")
        self.told(good, "denied")
        for pull in (good, bad, forked):
            self.people.comment(pull, "ines", "bors r+")
        self.told(good, "Landed on main")
        self.told(forked, "Landed on main")
        self.told(bad, "fails the check build")
        self.until("they are closed as merged", lambda: good.merged and forked.merged)
        self.assertEqual(bad.state, "open")
        for pull in (good, forked):
            self.until("its head tells that it landed", lambda it=pull: self.statuses(it)[-1:] and self.statuses(it)[-1][0] == "success")
            self.assertRegex(self.statuses(pull)[-1][1], r"\Alanded as [0-9a-f]{7}, with batch [0-9]+\Z")
            self.assertEqual({state for state, _ in self.statuses(pull)[:-1]}, {"pending"})
        self.is_at_last(bad, "failure", "not landed: it fails the check build")
        self.causes_are_explained(good=None, bad=("Failed", "build"), x=None)


if __name__ == "__main__":
    unittest.main()
