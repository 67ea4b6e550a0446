"""Tests of the repository on GitHub as git reaches it, over the server for tests."""
import sys
import unittest
from pathlib import Path
from unittest import mock

sys.path[:0] = [str(Path(__file__).resolve().parent), str(Path(__file__).resolve().parent.parent)]

from with_github import WithGitHub  # noqa: E402

from gate_host.git import GitFailed  # noqa: E402
from gate_host.github import remote  # noqa: E402
from gate_host.github.credentials import TokenInFile  # noqa: E402
from gate_host.github.remote import RemoteRepository  # noqa: E402
from gate_host.places import Places  # noqa: E402
from gate_host.setting_up import make_folders  # noqa: E402


class RemoteTests(WithGitHub):
    """A token that isn't taken any more, in place of which another one is put into the file."""

    def setUp(self):
        super().setUp()
        self.must_git("init", "--quiet", "--bare", "host")
        places = Places(self.room / "host")
        make_folders(places)
        self.file = self.room / "token"
        self.file.touch(0o600)
        self.put(self.token)
        self.remote = RemoteRepository(places, self.address(), TokenInFile(self.file), "main", "staging", "trying")
        self.first = self.project.bare.sha("refs/heads/main")
        self.remote.must_have("main", self.first)

    def put(self, token):
        self.file.write_text(token, encoding="utf-8")

    def token_ends(self):
        self.hub.tokens.expire()
        self.put(self.hub.installation_token())

    def test_a_list_of_branches(self):
        self.token_ends()
        self.assertRaises(GitFailed, self.remote.branches)
        self.assertEqual(self.remote.branches(), {"refs/heads/main": self.first})

    def test_a_push(self):
        self.token_ends()
        statuses = [self.remote.push(self.first, "refs/heads/topic", None).status for _ in range(2)]
        self.assertEqual((statuses[0] != 0, statuses[1]), (True, 0))
        self.assertEqual(self.project.bare.sha("refs/heads/topic"), self.first)

    def test_a_fetch(self):
        made = self.people.push_files(self.project, "ines", "topic", {"one": "1\n"})
        self.token_ends()
        # What isn't fetched together with others is tried by itself.
        self.assertEqual(self.remote.fetch({"made": made}), {})

    def test_a_token_that_does_not_permit_it(self):
        self.put(self.token_of("otto"))
        self.remote.given.refused()
        self.assertNotEqual(self.remote.push(self.first, "refs/heads/topic", None).status, 0)
        self.put(self.token)
        statuses = [self.remote.push(self.first, "refs/heads/topic", None).status for _ in range(2)]
        self.assertEqual((statuses[0] != 0, statuses[1]), (True, 0))

    def test_a_refusal_for_another_reason_asks_for_no_other_token(self):
        made = self.people.push_files(self.project, "ines", "topic", {"one": "1\n"})
        self.remote.must_have("made", made)
        self.put("none")
        self.assertIn("stale info", self.remote.push(made, "refs/heads/main", "1" * 40).output)
        self.assertEqual(self.remote.branches()["refs/heads/main"], self.first)

    def test_a_server_that_falls_silent_holds_nobody_up_for_long(self):
        self.assertEqual(list(self.remote.branches()), ["refs/heads/main"])
        self.switches.delay("git/info-refs*", 10)
        with mock.patch.object(remote, "SECONDS_OF_SILENCE", 1), self.assertRaisesRegex(GitFailed, "the branches can't be listed"):
            self.remote.branches()
        self.assertEqual(list(self.remote.branches()), ["refs/heads/main"])


if __name__ == "__main__":
    unittest.main()
