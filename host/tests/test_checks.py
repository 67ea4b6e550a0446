"""Tests of which checks run when, and of what becomes of those that come to no verdict."""
import errno
import os
import subprocess
import sys
import tempfile
import time
import unittest
from pathlib import Path
from types import SimpleNamespace
from unittest import mock

sys.path.insert(0, str(Path(__file__).resolve().parent.parent))

from gate_host.checks import (  # noqa: E402
    MOST_OUTPUTS, Checks, has_ended, is_of_system, lack_of_room, remove_tree, verdict_in,
)
from gate_host.git import GitFailed  # noqa: E402
from gate_host.core.known import Test  # noqa: E402
from gate_host.places import Places  # noqa: E402
from gate_host.ports import Fault, Result  # noqa: E402
from gate_host.sandbox import Sandbox, why_not  # noqa: E402
from gate_host.settings import settings_in  # noqa: E402

SECONDS = 30
TEST, OTHER = Test("staging", 1, "a" * 40), Test("staging", 2, "b" * 40)


def settings_of(checks, **given):
    lines = {"main": "main", "program": "/gate", "sandbox": "off", "retry_seconds": "0.001", **given}
    text = "".join(f"{name} = {value}\n" for name, value in lines.items())
    return settings_in(f"[host]\n{text}[checks]\n" + "".join(f"{name} = {command}\n" for name, command in checks.items()))


class InClones(unittest.TestCase):
    """Checks in clones that have nothing but a folder."""

    def setUp(self):
        room = tempfile.TemporaryDirectory()
        self.addCleanup(room.cleanup)
        self.room = Path(room.name)
        self.places = Places(self.room / "project.git")
        for folder in (self.places.clones, self.places.outputs):
            folder.mkdir(parents=True)
        self.begin_anew()

    def begin_anew(self):
        """Checks of a host that has just been started."""
        self.checks = Checks(self.places, SimpleNamespace(check_out=self.check_out, room_for=lambda commit: 5000), self.bring)
        self.addCleanup(self.checks.close)
        self.clones, self.done, self.faults, self.results = [], {}, [], []
        # What the clone and the fetching of the commit come to.
        self.why_not = self.why_not_brought = None

    def check_out(self, commit, path, seconds):
        self.clones.append(path)
        path.mkdir()
        if isinstance(self.why_not, Exception):
            raise self.why_not
        return self.why_not

    def bring(self, test):
        if self.why_not_brought:
            raise self.why_not_brought

    def round(self, settings, test=TEST):
        """What the loop does with checks in each round."""
        for found in self.checks.ended([test]):
            if isinstance(found, Fault):
                self.faults.append(found)
            else:
                self.assertNotIn(found.name, self.done)
                self.assertNotIn(found.name, [fault.name for fault in self.checks.lasting()])
                self.results.append(found)
                self.done[found.name] = found.state
        self.checks.begin(test, settings, self.done)

    def until(self, settings, is_so, test=TEST):
        late = time.monotonic() + SECONDS
        while not is_so():
            self.assertLess(time.monotonic(), late, (self.faults, self.results))
            self.round(settings, test)
            time.sleep(0.005)

    def run_all(self, checks, **given):
        """Runs checks until each has a result, and gives the states."""
        settings = settings_of(checks, **given)
        self.until(settings, lambda: len(self.done) == len(checks))
        return [(result.name, result.state) for result in self.results]

    def output_of(self, name):
        return (self.places.outputs / name).read_text(encoding="utf-8")


class VerdictTests(InClones):
    def test_a_verdict_of_the_check_itself_counts_at_once(self):
        for command, limit, state, said in (
            ("exit 0", "60", "success", "it ended with status 0 after [0-9]+ seconds"),
            ("exit 3", "60", "failure", "it ended with status 3 after [0-9]+ seconds"),
            ("kill -15 $$", "60", "error", "it was ended by signal 15 after [0-9]+ seconds"),
            ("exec sleep 60", "0.3", "error", "it took more than 0.3 seconds"),
        ):
            self.begin_anew()
            self.run_all({"build": command}, check_seconds=limit)
            self.assertEqual(self.results, [Result(TEST, "build", state, self.results[0].said, "1-0-build")], command)
            self.assertRegex(self.results[0].said, f"^{said}$")
            self.assertEqual((self.faults, len(self.clones)), ([], 1), command)

    def test_a_check_that_fails_does_not_stop_the_others(self):
        for parallel in ("no", "yes"):
            self.begin_anew()
            found = self.run_all({"build": "exit 1", "lint": "exit 2", "test": "exit 0"}, parallel=parallel)
            self.assertEqual(sorted(found), [("build", "failure"), ("lint", "failure"), ("test", "success")])

    def test_what_a_check_is_told(self):
        command = 'echo "$GATE_CHECK $GATE_COMMIT $GATE_BRANCH $GIT_NO_REPLACE_OBJECTS $GIT_DIR"'
        with mock.patch.dict(os.environ, GIT_DIR="/x"):
            self.run_all({"build": command})
        self.assertEqual(self.output_of("1-0-build").splitlines()[0], f"build {TEST.commit} staging 1 ")

    def test_what_is_no_verdict(self):
        for written in (b"", b"{", b'{"state": "succ'):
            self.assertEqual(verdict_in(written), ("killed", "it was killed"))
        self.assertEqual(verdict_in(b'{"state": "failure", "said": "x"}\n'), ("failure", "x"))

    def test_a_result_that_was_lost_comes_again(self):
        settings = settings_of({"build": "exit 0"})
        self.round(settings)
        late = time.monotonic() + SECONDS
        while not self.checks.ended([TEST]):
            self.assertLess(time.monotonic(), late)
        self.assertEqual(self.run_all({"build": "exit 0"}), [("build", "success")])
        self.assertEqual(len(self.clones), 2)

    def test_a_check_of_a_commit_of_before_has_no_result(self):
        """It may have ended since the bot has put its batch back, when another one is tested on the branch, or none."""
        settings = settings_of({"build": "exit 0"})
        for wanted in ([OTHER], []):
            self.begin_anew()
            self.round(settings)
            late = time.monotonic() + SECONDS
            while not all(has_ended(lane.running.process) for lane in self.checks.lanes()):
                self.assertLess(time.monotonic(), late)
            self.assertEqual(self.checks.ended(wanted), [])
        self.until(settings, lambda: self.results, OTHER)
        self.assertEqual([result.test for result in self.results], [OTHER])

    def test_the_last_outputs_are_kept(self):
        for number in range(MOST_OUTPUTS + 3):
            path = self.places.outputs / f"0-{number}-old"
            path.touch()
            os.utime(path, (number, number))
        self.run_all({"build": "exit 0"})
        names = {path.name for path in self.places.outputs.iterdir()}
        self.assertEqual((len(names), "0-2-old" in names, "0-3-old" in names), (MOST_OUTPUTS + 1, False, True))


class FaultTests(InClones):
    """What is nobody's fault."""

    def faults_of_host(self):
        """Each fault that has a limit: how it comes about, which command runs, and what is said."""
        away = self.room / "away"
        yield "the command is killed", "kill -9 $$", {}, "it was killed after [0-9]+ seconds"
        yield "a part of the command is killed", "sh -c 'kill -9 $$'; exit $?", {}, "it was killed after [0-9]+ seconds"
        yield "the runner is killed", "kill -9 $PPID; exec sleep 9", {}, "it was killed"
        yield "git can't check it out", "exit 0", {"why_not": "fatal: no"}, "the commit can't be checked out: fatal: no"
        yield "git ends", "exit 0", {"why_not": GitFailed("no")}, "the commit can't be checked out: no"
        yield "it isn't in the mirror", "exit 0", {"why_not_brought": GitFailed("no")}, "the commit can't be checked out: no"
        yield "no clone can be made", "exit 0", {"why_not": PermissionError(13, "no")}, r"the commit can't be checked out: \[Errno 13\] no"
        yield "outputs are gone", f"mv {self.places.outputs} {away}; kill -9 $$", {}, "it can't be started: .*No such file or directory: .*"
        yield "an output is no file", f"rm -r {self.places.outputs}/*; mkdir {self.places.outputs}/1-0-build; kill -9 $$", {}, (
            "it couldn't be run: .*Is a directory: .*"
        )

    def test_a_fault_of_the_host_is_tried_again_and_then_given_up(self):
        for what, command, given, said in self.faults_of_host():
            with self.subTest(what):
                self.begin_anew()
                vars(self).update(given)
                self.run_all({"build": command})
                self.must_be_given_up(said)
                if (self.room / "away").exists():
                    (self.room / "away").rename(self.places.outputs)

    def must_be_given_up(self, said):
        self.assertEqual([(fault.test, fault.name) for fault in self.faults], [(TEST, "build")] * 4)
        self.assertEqual([(result.name, result.state) for result in self.results], [("build", "error")])
        self.assertRegex(self.faults[-1].said, f"^{said}$")
        self.assertRegex(self.results[0].said, rf"^{said} \(tried 5 times; a fault of the host\)$")
        path = self.places.outputs / self.results[0].output
        if path.is_file():
            self.assertIn(f"[{self.results[0].said}]\n", path.read_text(encoding="utf-8"))
        self.assertEqual((self.checks.lasting(), list(self.places.clones.iterdir())), ([], []))

    def test_a_sandbox_that_is_required_and_not_there(self):
        with mock.patch("gate_host.sandbox.why_not", mock.Mock(return_value="it isn't there")) as looked:
            self.run_all({"build": "exit 0"}, sandbox="required")
            self.must_be_given_up("it can't be started: checks have to run in a sandbox, and it isn't there")
            self.assertEqual(looked.cache_clear.call_count, 5)

    @unittest.skipIf(why_not(), why_not())
    def test_a_sandbox_that_cannot_be_made(self):
        with mock.patch("gate_host.checks.sandbox_of", lambda _: Sandbox(True, "")), \
                mock.patch("gate_host.checks.words_before", lambda *_: ["bwrap", "--bind", "/none", "/x"]):
            self.run_all({"build": "exit 0"})
        self.must_be_given_up("the sandbox couldn't be made: bwrap: Can't find source path /none: No such file or directory")

    def test_a_fault_of_the_system_is_never_that_of_the_check(self):
        full = self.places.outputs / "1-0-build"
        for what, command, given in (
            ("git says so", "exit 0", {"why_not": "fatal: cannot create directory at 'x': No space left on device"}),
            ("the host sees it", "exit 0", {"why_not": OSError(errno.ENOSPC, os.strerror(errno.ENOSPC))}),
            ("it isn't brought", "exit 0", {"why_not_brought": GitFailed("git fetch: Disk quota exceeded")}),
            ("its output can't be written", f"ln -sf /dev/full {full}; kill -9 $$", {}),
        ):
            with self.subTest(what):
                self.begin_anew()
                vars(self).update(given)
                self.until(settings_of({"build": command}), lambda: len(self.faults) == 8)
                self.assertEqual(self.results, [])
                self.assertEqual(self.checks.lasting(), self.faults[-1:])
                self.assertRegex(self.faults[-1].said, "No space left on device|Disk quota exceeded")
                self.checks.close()
                self.assertEqual(list(self.places.clones.iterdir()), [])

    def test_that_there_is_no_room_is_found_out_if_git_does_not_say_so(self):
        self.why_not = "error: unable to write file parts/big"
        # The clone has to be away by then: what it takes isn't needed twice.
        with mock.patch("os.posix_fallocate", self.no_room):
            self.until(settings_of({"build": "exit 0"}), lambda: len(self.faults) == 6)
        said = f"the commit can't be checked out: {self.why_not} (5000 bytes are needed: No space left on device)"
        self.assertEqual(({fault.said for fault in self.faults}, self.results), ({said}, []))

    def test_a_check_that_fails_on_a_full_disk_has_no_verdict(self):
        settings = settings_of({"build": "exit 3"})
        with mock.patch("os.posix_fallocate", mock.Mock(side_effect=OSError(errno.ENOSPC, os.strerror(errno.ENOSPC)))):
            self.until(settings, lambda: len(self.faults) == 6)
            said = r"^it ended with status 3 after .* \(1048576 bytes are needed: No space left on device\)$"
            self.assertRegex(self.faults[0].said, said)
            self.assertEqual(self.results, [])
            for command, due in (("exit 0", "success"), ("exec sleep 60", "error")):
                self.begin_anew()
                self.assertEqual(self.run_all({"build": command}, check_seconds="2"), [("build", due)])

    def no_room(self, file, start, size):
        self.assertEqual((start, size, self.clones[-1].exists()), (0, 5000, False))
        raise OSError(errno.ENOSPC, os.strerror(errno.ENOSPC))

    def test_which_room_there_is(self):
        for raised, due in (
            (None, ""), (errno.EDQUOT, " (7 bytes are needed: Disk quota exceeded)"), (errno.EOPNOTSUPP, ""), (errno.EFBIG, ""),
        ):
            with mock.patch("os.posix_fallocate", mock.Mock(side_effect=raised and OSError(raised, os.strerror(raised)))) as asked:
                self.assertEqual(lack_of_room(self.room, 7), due)
            self.assertEqual(asked.call_args[0][1:], (0, 7))
            self.assertFalse((self.room / "room").exists())
        self.assertEqual((lack_of_room(self.room, 0), lack_of_room(self.room, 9000)), ("", ""))
        # To open it for writing would wait for a reader.
        os.mkfifo(self.room / "room")
        self.assertEqual(lack_of_room(self.room, 7), "")

    def test_a_fault_of_the_system_is_no_attempt(self):
        self.why_not = OSError(errno.EMFILE, os.strerror(errno.EMFILE))
        settings = settings_of({"build": "exit 0"})
        self.until(settings, lambda: len(self.faults) == 6)
        self.why_not = "no"
        self.until(settings, lambda: self.results)
        self.assertEqual(len(self.faults), 10)

    def test_what_is_a_fault_of_the_system(self):
        for fault in (errno.ENOSPC, errno.EDQUOT, errno.EIO, errno.EMFILE, errno.ENFILE, errno.ENOMEM, errno.EROFS, errno.EAGAIN):
            self.assertTrue(is_of_system(f"fatal: {os.strerror(fault)}"), fault)
        for fault in (errno.ENAMETOOLONG, errno.ENOENT, errno.EACCES):
            self.assertFalse(is_of_system(f"fatal: {os.strerror(fault)}"), fault)

    def test_the_pauses_grow(self):
        for retry_seconds, given, due in (
            ("5", "no", [5, 10, 20, 40]), ("20", "no", [20, 40, 60, 60]), ("300", "no", [300, 300, 300, 300]),
            ("5", "No space left on device", [5, 10, 20, 40, 60, 60, 60]),
        ):
            self.begin_anew()
            self.why_not = given
            now = [1000]
            settings = settings_of({"build": "exit 0"}, retry_seconds=retry_seconds)
            with mock.patch("gate_host.checks.time", SimpleNamespace(monotonic=lambda: now[0])):
                begun = []
                while len(begun) <= len(due):
                    count = len(self.clones)
                    self.round(settings)
                    begun += [now[0]] * (len(self.clones) - count)
                    now[0] += 1
            self.assertEqual([after - before for before, after in zip(begun, begun[1:])], due, (retry_seconds, given))

    def test_a_fault_lasts_until_there_is_a_verdict(self):
        mark = self.room / "mark"
        settings = settings_of({"build": f"test -e {mark} || kill -9 $$", "lint": "exit 1"})
        self.until(settings, lambda: len(self.faults) == 2)
        self.assertEqual(self.checks.lasting(), self.faults[1:])
        mark.touch()
        self.until(settings, lambda: self.results)
        self.assertEqual(self.checks.lasting(), [])
        self.until(settings, lambda: len(self.results) == 2)
        self.assertEqual(self.done, {"build": "success", "lint": "failure"})

    def test_a_fault_of_a_check_that_is_not_wanted_any_more_goes(self):
        self.until(settings_of({"build": "kill -9 $$", "lint": "exit 0"}), lambda: self.faults)
        self.until(settings_of({"lint": f"touch {self.room}/mark; exec sleep 60"}), (self.room / "mark").exists)
        self.assertEqual(self.checks.lasting(), [])
        self.begin_anew()
        self.why_not = "no"
        self.round(settings_of({"build": "exit 0"}))
        self.assertEqual([fault.name for fault in self.checks.lasting()], ["build"])
        self.assertEqual((self.checks.ended([OTHER]), self.checks.lasting()), ([], []))

    def test_each_check_has_its_own_attempts(self):
        found = self.run_all({"build": "kill -9 $$", "lint": "kill -9 $$", "test": "exit 0"})
        self.assertEqual(found, [("build", "error"), ("lint", "error"), ("test", "success")])
        self.assertEqual([fault.name for fault in self.faults], ["build"] * 4 + ["lint"] * 4)

    def test_a_commit_that_cannot_be_checked_out_fails_all_its_checks_soon(self):
        self.why_not = "no"
        self.assertEqual(self.run_all({"build": "exit 0", "lint": "exit 0"}), [("build", "error"), ("lint", "error")])
        self.assertEqual([fault.name for fault in self.faults], ["build"] * 4)
        self.assertEqual(self.results[1].said, "the commit can't be checked out: no (tried once; a fault of the host)")
        self.assertEqual(self.output_of("1-1-lint"), f"[{self.results[1].said}]\n")

    def test_a_clone_that_can_be_made_after_all_gives_hope(self):
        self.why_not = "no"
        settings = settings_of({"build": "exit 0", "lint": f"test -e {self.room}/mark || {{ touch {self.room}/mark; kill -9 $$; }}"})
        self.until(settings, lambda: len(self.faults) == 4)
        self.until(settings, lambda: len(self.clones) == 5)
        # A full disk gives no result either, although there is no hope.
        self.why_not = "No space left on device"
        self.until(settings, lambda: len(self.faults) == 7)
        self.why_not = None
        self.until(settings, lambda: len(self.results) == 2)
        self.assertEqual(self.done, {"build": "error", "lint": "success"})

    def test_an_output_of_an_older_history_is_none(self):
        (self.places.outputs / "1-0-build").write_text("old\n", encoding="utf-8")
        self.why_not = "no"
        self.run_all({"build": "exit 0"})
        self.assertEqual(self.output_of("1-0-build"), f"[{self.results[0].said}]\n")


class CloneTests(InClones):
    """Which checks run in which clone."""

    def test_checks_find_what_those_before_made_unless_they_run_side_by_side(self):
        for parallel, due, clones in (("no", "success", 1), ("yes", "failure", 2)):
            self.begin_anew()
            found = self.run_all({"build": "touch made", "test": "test -e made"}, parallel=parallel)
            self.assertEqual((sorted(found), len(self.clones)), ([("build", "success"), ("test", due)], clones))
            self.round(settings_of({"build": "touch made", "test": "test -e made"}))
            self.assertEqual(list(self.places.clones.iterdir()), [])

    def test_they_run_side_by_side(self):
        meets = "touch {}; until test -e {}; do sleep 0.02; done"
        one, two = self.room / "one", self.room / "two"
        found = self.run_all({"build": meets.format(one, two), "test": meets.format(two, one)}, parallel="yes", check_seconds="20")
        self.assertEqual(sorted(found), [("build", "success"), ("test", "success")])

    def test_one_clone_is_made_at_a_time(self):
        settings = settings_of({name: "exec sleep 9" for name in "abc"}, parallel="yes")
        made = []
        for _ in range(4):
            self.round(settings)
            made.append(len(self.clones))
        self.assertEqual(made, [1, 2, 3, 3])

    def test_one_that_waits_does_not_hold_up_the_others(self):
        found = self.run_all({"build": "kill -9 $$", "test": "exit 0"}, parallel="yes", retry_seconds="0.05")
        self.assertEqual(found, [("test", "success"), ("build", "error")])

    def test_another_setting_counts_for_the_next_commit(self):
        for before, after, clones in (("no", "yes", 1), ("yes", "no", 2)):
            self.begin_anew()
            checks = {"build": f"until test -e {self.room}/go; do sleep 0.02; done", "test": "exit 0"}
            self.round(settings_of(checks, parallel=before))
            for _ in range(3):
                self.round(settings_of(checks, parallel=after))
            (self.room / "go").touch()
            self.assertEqual(sorted(self.run_all(checks, parallel=after)), [("build", "success"), ("test", "success")])
            self.assertEqual(len(self.clones), clones)
            (self.room / "go").unlink()

    def test_after_a_fault_all_begins_anew(self):
        """What a check has left that was killed may be half of something. So the next one has a new clone, with what came before."""
        builds, mark = self.room / "builds", self.room / "mark"
        found = self.run_all({
            "build": f"echo x >>{builds}; wc -l <{builds}; touch made", "lint": "exit 1",
            "test": f"test -e made && test ! -e half && {{ test -e {mark} || {{ touch half {mark}; kill -9 $$; }}; }}",
        })
        self.assertEqual(found, [("build", "success"), ("lint", "failure"), ("test", "success")])
        self.assertEqual((builds.read_text(encoding="utf-8"), len(self.clones)), ("x\nx\n", 2))
        self.assertEqual(self.output_of("1-0-build").split("\n")[0], "1")

    def test_after_a_start_all_begins_anew(self):
        self.done = {"build": "success", "lint": "failure"}
        checks = {"build": "touch made", "lint": "touch linted", "test": "test -e made && test ! -e linted"}
        self.until(settings_of(checks), lambda: self.results)
        self.assertEqual([(result.name, result.state) for result in self.results], [("test", "success")])

    def test_what_succeeded_and_does_not_any_more_is_no_fault_of_the_next(self):
        self.done = {"build": "success"}
        self.until(settings_of({"build": "exit 3", "test": "exit 0"}), lambda: self.results)
        self.assertEqual([fault.name for fault in self.faults], ["test"] * 4)
        self.assertRegex(self.results[0].said, "^the check build before it was run again, and didn't succeed this time: .* status 3 .*host")

    def test_what_is_not_wanted_any_more_is_stopped(self):
        left = self.room / "left"
        settings = settings_of({"build": f"echo $$ >>{left}; exec sleep 60"})
        self.until(settings, lambda: left.exists() and left.read_text(encoding="utf-8"))
        self.checks.begin(OTHER, settings, {})
        self.assertEqual(len(list(self.places.clones.iterdir())), 1)
        self.wait_until_gone(left)
        left.unlink()
        self.until(settings, lambda: left.exists() and left.read_text(encoding="utf-8"), OTHER)
        self.checks.ended([])
        self.wait_until_gone(left)
        self.assertEqual(list(self.places.clones.iterdir()), [])

    def wait_until_gone(self, left):
        """Waits until the process that has left its number is gone, or is no more than a number."""
        status = Path(f"/proc/{left.read_text(encoding='utf-8').strip()}/stat")
        late = time.monotonic() + SECONDS
        while status.exists() and ") Z " not in status.read_text(encoding="utf-8"):
            self.assertLess(time.monotonic(), late)
            time.sleep(0.02)

    def test_what_an_earlier_host_has_left_is_removed(self):
        (self.places.clones / "staging-1/clone").mkdir(parents=True)
        (self.places.records / "worktrees/x").mkdir(parents=True)
        self.checks.clear()
        self.assertEqual((list(self.places.clones.iterdir()), (self.places.records / "worktrees").exists()), ([], False))

    def test_what_was_made_unwritable_is_removed(self):
        folder = self.room / "worktree" / "folder"
        folder.mkdir(parents=True)
        (folder / "file").touch()
        (folder / "link").symlink_to("/")
        (folder / "closed/within").mkdir(parents=True)
        # Deeper than a path may be long, and than a function may call itself.
        deep = 'import os\nfor _ in range(3000):\n    os.mkdir("d")\n    os.chdir("d")'
        subprocess.run([sys.executable, "-c", deep], cwd=folder, check=True, timeout=60)
        (folder / "closed").chmod(0o000)
        folder.chmod(0o555)
        outside = Path(tempfile.mkdtemp())
        self.addCleanup(outside.rmdir)
        outside.chmod(0o500)
        (self.room / "worktree/outside").symlink_to(outside)
        (self.room / "outside").symlink_to(outside)
        for name in ("worktree", "outside"):
            remove_tree(self.room / name)
        self.assertEqual(outside.stat().st_mode & 0o777, 0o500)
        self.assertEqual([path.name for path in self.room.iterdir()], ["project.git"])


if __name__ == "__main__":
    unittest.main()
