"""Stories of a host on GitHub about what a change has to be to land: its head, its labels, its reviews, where it goes."""
import unittest

try:
    import httpx
except ImportError:
    httpx = None

from github_stories import WithHost


@unittest.skipIf(httpx is None, "httpx isn't installed")
class HeadTests(WithHost):
    poll_seconds = 0.5

    def test_what_was_pushed_after_an_approval_does_not_land(self):
        pushed = self.people.propose(self.project, "otto", "pushed", {"pushed": "1\n"})
        missed = self.people.propose(self.project, "otto", "missed", {"missed": "1\n"})
        self.is_tested = False
        self.start()
        self.approve(pushed)
        self.until("it is staged", lambda: self.project.bare.sha("refs/heads/staging"))
        self.people.push_files(self.project, "otto", "pushed", {"pushed": "2\n"})
        self.until("the push is seen", lambda: self.is_seen(pushed))
        self.see(missed)
        self.edit_a_comment_on(missed)
        self.kill()
        self.people.comment(missed, "ines", "bors r+")
        self.later(missed)
        self.people.push_files(self.project, "otto", "missed", {"missed": "2\n"})
        self.is_tested = True
        self.start()
        self.told(missed, "the change is at " + missed.head_sha)
        # What is approved after all this lands alone.
        other = self.people.propose(self.project, "otto", "other", {"other": "1\n"})
        self.approve(other)
        self.landed(other)
        self.assertEqual((pushed.state, missed.state), ("open", "open"))
        self.assertEqual([it for it in self.comments(missed) if "approved" in it], [])
        # Once by each of the two hosts, at the most.
        self.assertLessEqual(self.errors.read_text(encoding="utf-8").count("is no comment on a change"), 2)
        files = self.project.bare.git("ls-tree", "--name-only", "refs/heads/main").split()
        self.assertEqual((set(files) & {"pushed", "missed"}, "other" in files), (set(), True))
        self.causes_are_explained(pushed=("Pushed", ""), missed=None, other=None)
        self.approve(pushed, missed)
        self.landed(pushed, missed)
        self.causes_are_explained(pushed=None, missed=None, other=None)

    def test_a_comment_on_a_head_that_no_look_has_seen(self):
        pull = self.people.propose(self.project, "otto", "back", {"back": "bad for all\n"})
        first = pull.head_sha
        self.start()
        self.see(pull)
        self.polls(2)
        self.kill()
        self.people.push_files(self.project, "otto", "back", {"back": "good\n"})
        self.later(pull)
        self.people.comment(pull, "ines", "bors r+")
        self.until("some seconds have gone by", lambda: self.hub.world.clock.now() > pull.updated_at + 6)
        self.people.push(self.project, "otto", "back", first)
        self.start()
        self.told(pull, "the change is at " + first)
        self.assertEqual([it for it in self.comments(pull) if "approved" in it], [])
        self.causes_are_explained(back=None)
        self.later(pull)
        self.people.comment(pull, "ines", "bors r+")
        self.landed(pull)
        self.causes_are_explained(back=None)

    def polls(self, times):
        """Waits until comments were read so many times."""
        due = len(self.switches.asked("issues/list-comments-for-repo")) + times
        self.until("comments are read", lambda: len(self.switches.asked("issues/list-comments-for-repo")) >= due)

    def edit_a_comment_on(self, pull):
        """Has a comment edited to a command after it was read, which is no new one; and has one written that is on no change."""
        comment = self.people.comment(pull, "ines", "Nearly.")
        self.polls(2)
        self.later(pull)
        self.people.comment(self.people.open_issue(self.project, "otto"), "ines", "bors r+")
        self.polls(5)
        self.people.edit_comment(comment, "ines", "bors r+")
        self.polls(3)


@unittest.skipIf(httpx is None, "httpx isn't installed")
class ConditionTests(WithHost):
    bors = 'status = ["build"]\nblock_labels = ["wip"]\nrequired_approvals = 1\npr_status = ["format"]\n'

    def refused(self, pull, why):
        """An approval that is denied, for a reason."""
        before = len(self.comments(pull))
        self.people.comment(pull, "ines", "bors r+")
        self.until(f"{pull.number} is told {why}: {self.comments(pull)}", lambda: any(why in it for it in self.comments(pull)[before:]))

    def test_a_review_counts_for_the_command_behind_it_without_a_webhook(self):
        pull = self.people.propose(self.project, "otto", "x", {"x": "1\n"})
        self.start()
        self.see(pull)
        self.people.status(self.project, "ines", pull.head_sha, "format", "success")
        self.people.review(pull, "vera", "APPROVED")
        self.people.comment(pull, "ines", "bors r+")
        self.landed(pull)
        self.causes_are_explained(x=None)

    def test_what_keeps_a_change_from_landing(self):
        self.people.push_files(self.project, "root", "next", {"next": "1\n"})
        pull = self.people.propose(self.project, "otto", "x", {"x": "1\n"})
        self.start_receiver()
        self.start()
        self.see(pull)
        self.refused(pull, "denied")
        self.people.status(self.project, "ines", pull.head_sha, "format", "success")
        self.refused(pull, "review")
        review = self.people.review(pull, "vera", "APPROVED")
        self.people.label(pull, "ines", "wip")
        self.refused(pull, "wip")
        self.people.unlabel(pull, "ines", "wip")
        self.people.dismiss(review, "ines")
        self.refused(pull, "review")
        self.people.review(pull, "vera", "APPROVED")
        self.people.make_draft(pull, "otto")
        self.until("a draft is no change", lambda: self.is_closed(pull))
        self.refused(pull, "it is a draft")
        self.people.ready(pull, "otto")
        self.until("it is a change again", lambda: not self.is_closed(pull))
        self.people.retarget(pull, "otto", "next")
        self.until("one for another branch is no change", lambda: self.is_closed(pull))
        self.people.retarget(pull, "otto", "main")
        self.until("it is a change again", lambda: not self.is_closed(pull))
        self.assertEqual((pull.merged, self.statuses(pull)), (False, []))
        self.causes_are_explained(x=None)
        self.approve(pull)
        self.landed(pull)
        self.is_at_last(pull, "success", f"landed as {self.main()[:7]}, with batch 1")
        self.causes_are_explained(x=None)


if __name__ == "__main__":
    unittest.main()
