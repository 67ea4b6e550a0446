"""A real Buildbot, with a master and two workers, tests what a host stages: set up by the commands of docs/host.md, over a real sshd.

It needs what with_sshd.py needs, and Debian's buildbot and buildbot-worker. Without these it is skipped, and says so.
"""
import re
import shutil
import socket
import sys
import unittest

from with_sshd import TOP, WithSshd, blocks_of_page

HEADING = "### With Buildbot\n"
LEFT_OUT = "apt-get install --no-install-recommends buildbot buildbot-worker"
KEY_OF_PAGE = "ssh-ed25519 AAAA... buildbot"
# What the team's Makefile has. Each part writes down when it began and ended, and on which worker. `tests` fails if a file `bad` is there.
MAKEFILE = """\
all:
\techo "$(CURDIR) build began `date +%s.%N`" >> {times}
\tsleep 1.5
\techo "$(CURDIR) build ended `date +%s.%N`" >> {times}
test:
\techo "$(CURDIR) tests began `date +%s.%N`" >> {times}
\tsleep 1.5
\techo "$(CURDIR) tests ended `date +%s.%N`" >> {times}
\ttest ! -f bad
"""


class BuildTests(WithSshd):
    """The team of the page requires two statuses that Buildbot reports."""

    others = ("buildbot",)

    @classmethod
    def setUpClass(cls):
        missing = [name for name in ("buildbot", "buildbot-worker", "make") if not shutil.which(name)]
        if missing:
            print(f"no test with a real Buildbot: {missing[0]} isn't installed", file=sys.stderr)
            raise unittest.SkipTest(missing[0])
        super().setUpClass()
        cls.times = cls.room / "times"
        of_machine, of_master = blocks_of_page(HEADING)
        text = cls.changed(of_machine, KEY_OF_PAGE, (cls.room / "buildbot.pub").read_text(encoding="utf-8").strip())
        for before, after in (("/usr/local/lib/gate", "lib"), ("/srv/", "srv/")):
            text = cls.changed(text, before, f"{cls.room}/{after}")
        cls.must_run("bash", "-e", "-c", text, at=cls.room)
        settings = cls.repository / "gate/settings"
        settings.write_text(cls.changed(settings.read_text(encoding="utf-8"), 'build = test -s greeting\n', ""), encoding="utf-8")
        cls.start_buildbot(cls.changed(of_master, f"{LEFT_OUT}\n", ""))

    @classmethod
    def start_buildbot(cls, commands):
        """Types the commands of the page as the user who has the key, with a free port and shorter pauses."""
        with socket.create_server(("127.0.0.1", 0)) as server:
            port = server.getsockname()[1]
        place = cls.room / "people"
        (place / "gate/deploy/buildbot").mkdir(parents=True)
        text = (TOP / "deploy/buildbot/master.cfg").read_text(encoding="utf-8")
        for before, after in (("tcp:9989", f"tcp:{port}:interface=127.0.0.1"), ("POLL_SECONDS = 5", "POLL_SECONDS = 1")):
            text = cls.changed(text, before, after)
        (place / "gate/deploy/buildbot/master.cfg").write_text(text, encoding="utf-8")
        for name in ("master", "worker-1", "worker-2"):
            stop = ["buildbot" if name == "master" else "buildbot-worker", "stop", name]
            cls.addClassCleanup(cls.run_it, *stop, person="buildbot")
        # On a busy machine a worker needs more than the ten seconds after which its start fails. It goes on all the same.
        cls.make_tool("buildbot-worker", f'{shutil.which("buildbot-worker")} "$@" || {{ [ "$1" = start ] && [ -e "$2/twistd.pid" ]; }}')
        cls.must_run("bash", "-e", "-c", cls.changed(commands, " localhost ", f" localhost:{port} "), person="buildbot", at=place)

    def test_changes_land_that_it_has_built(self):
        self.bring("alice", 1, {"Makefile": MAKEFILE.format(times=self.times), "bors.toml": 'status = ["build", "tests"]\n'})
        self.must_run("ssh", "git@machine", "say", "1", "bors r+")
        # Until this has landed `build` alone is required.
        self.log_says(1, "The check build of batch 1 (change 1) succeeded: as buildbot reports: http", "Landed on main as")
        for change, person, name in ((2, "alice", "good"), (3, "eve", "bad")):
            self.bring(person, change, {name: name})
        for change in (2, 3):
            self.must_run("ssh", "git@machine", "say", str(change), "bors r+")
        self.log_says(3, "failed: as buildbot reports: http", "(Failed): it fails the check tests")
        self.log_says(2, "Landed on main as")
        self.assertNotIn("bad", self.must_run("git", "--git-dir", self.repository, "ls-tree", "--name-only", "main"))
        self.they_ran_side_by_side()
        # It ends with status 1 if it finds something.
        said = self.must_run(self.room / "lib/host/gate-host", "audit", self.repository, "--program", self.room / "lib/gate")
        self.assertIn("2 landings with 2 changes, 0 past the queue", said)

    def they_ran_side_by_side(self):
        """Both workers have built, and at some moment both were at work."""
        began, both = {}, False
        workers = set()
        for line in self.times.read_text(encoding="utf-8").splitlines():
            folder, name, what, _ = line.split()
            worker = re.search(r"worker-[12]", folder)[0]
            workers.add(worker)
            began[worker] = what == "began"
            both = both or sum(began.values()) == 2
        self.assertEqual((workers, both), ({"worker-1", "worker-2"}, True))

    def test_nobody_else_reports(self):
        commit = self.main()
        for person, name in (("eve", "build"), ("alice", "tests"), ("buildbot", "lint")):
            ran = self.ssh("status", commit, name, "success", person=person)
            self.assertEqual((ran.returncode, f"{person} isn't named as a reporter of {name}" in ran.stderr), (1, True), ran.stderr)

    def bring(self, person, change, files):
        """Files that somebody adds in a new clone, and pushes as a change."""
        place = self.room / "people" / f"of-{change}"
        self.must_run("git", "clone", "--quiet", "git@machine:project.git", place, person=person)
        for name, text in files.items():
            (place / name).write_text(text, encoding="utf-8")
        self.must_run("git", "add", ".", at=place)
        self.must_run("git", "commit", "--quiet", "-m", f"Change {change}", at=place, person=person)
        self.must_run("git", "push", "--quiet", "origin", f"HEAD:change/{change}", at=place, person=person)


if __name__ == "__main__":
    unittest.main()
