"""Tests of the process that runs one check."""
import json
import shlex
import signal
import subprocess
import sys
import tempfile
import time
import unittest
from pathlib import Path

sys.path.insert(0, str(Path(__file__).resolve().parent.parent))

from gate_host.sandbox import why_not  # noqa: E402

RUNNER = Path(__file__).resolve().parent.parent / "gate_host/check_runner.py"


class CheckRunnerTests(unittest.TestCase):
    def setUp(self):
        room = tempfile.TemporaryDirectory()
        self.addCleanup(room.cleanup)
        self.room = Path(room.name)

    def start(self, command, seconds=20):
        return self.start_words(["/bin/sh", "-c", command], seconds)

    def start_words(self, words, seconds=20, output=None):
        arguments = [sys.executable, str(RUNNER), str(seconds), str(output or self.room / "output"), *words]
        return subprocess.Popen(arguments, cwd=self.room, stdin=subprocess.PIPE, stdout=subprocess.PIPE, start_new_session=True)

    def verdict_of(self, command, **more):
        verdict = self.written_by(self.start(command, **more))
        return verdict["state"], verdict["said"], (self.room / "output").read_bytes()

    def written_by(self, process):
        """What it writes in the end. That kills it with its group, and its input stays open until then."""
        said = process.stdout.read()
        self.assertEqual(process.wait(30), -signal.SIGKILL)
        process.stdin.close()
        process.stdout.close()
        return json.loads(said)

    def test_verdicts(self):
        for command, state, said in (
            ("exit 0", "success", "status 0"), ("exit 3", "failure", "status 3"), ("none-such", "failure", "status 127"),
            ("kill -15 $$", "error", "signal 15"), ("kill -11 $$", "error", "signal 11"), ("kill -9 $$", "killed", "it was killed after"),
            # A shell that has more to do gives a status in the place of the signal.
            ("sh -c 'kill -9 $$'; exit $?", "killed", "it was killed after"),
            ("sh -c 'kill -15 $$'; exit $?", "failure", "status 143"),
        ):
            found = self.verdict_of(command)
            self.assertEqual(found[0], state, command)
            self.assertIn(said, found[1])

    def test_an_output_that_cannot_be_written_is_no_verdict(self):
        for output, command, said in (
            ("/dev/full", "echo x", "No space left on device"), ("/dev/full", "exit 0", "No space left on device"),
            (self.room, "exit 0", "Is a directory"),
        ):
            verdict = self.written_by(self.start_words(["/bin/sh", "-c", command], output=output))
            self.assertEqual(verdict["state"], "unrun")
            self.assertIn(said, verdict["said"])

    def test_a_command_that_cannot_be_run_is_no_verdict(self):
        verdict = self.written_by(self.start_words([str(self.room / "none")]))
        self.assertEqual((verdict["state"], "No such file" in verdict["said"]), ("unrun", True))

    @unittest.skipIf(why_not(), why_not())
    def test_a_sandbox_that_cannot_be_made_is_told_apart(self):
        within = "--unshare-all --die-with-parent --ro-bind / / --proc /proc --dev /dev"
        for given, state, said in (
            ("--bind /none /x /bin/true", "unmade", "couldn't be made: bwrap: Can't find source path /none: No such file or directory"),
            (f"{within} sh -c 'echo bwrap: no; exit 1'", "failure", "status 1"), (f"{within} true", "success", "status 0"),
            (f"{within} sh -c 'kill -9 $$'", "killed", "it was killed after"), (f"{within} sh -c 'kill -11 $$'", "failure", "status 139"),
        ):
            verdict = self.written_by(self.start_words(["bwrap", *shlex.split(given)]))
            self.assertEqual((verdict["state"], said in verdict["said"]), (state, True), (given, verdict))

    def test_no_signal_is_ignored_within(self):
        for number in (signal.SIGTERM, signal.SIGINT, signal.SIGHUP):
            self.addCleanup(signal.signal, number, signal.signal(number, signal.SIG_IGN))
            self.assertIn(f"ended by signal {number.value} ", self.verdict_of(f"kill -{number.value} $$")[1])

    def test_a_long_output_keeps_its_beginning_and_its_end(self):
        state, _, output = self.verdict_of("echo begins; head -c 3000000 /dev/zero | tr '\\0' x; echo ends")
        self.assertEqual(state, "success")
        self.assertTrue(output.startswith(b"begins\n") and b"ends\n" in output[-60:] and b"bytes are left out here" in output)
        self.assertLess(len(output), 300000)

    def test_a_check_that_never_ends_is_killed_with_all_it_started(self):
        start = "sleep 600 & echo $! >left; "
        for command in (start + "wait", start + "yes", "exec >&- 2>&-; " + start + "wait"):
            state, said, _ = self.verdict_of(command, seconds=0.5)
            self.assertEqual((state, said), ("error", "it took more than 0.5 seconds"))
            self.wait_until_gone()

    def test_what_a_check_leaves_behind_is_killed(self):
        self.assertEqual(self.verdict_of("sleep 600 & echo $! >left")[0], "success")
        self.wait_until_gone()

    def test_a_check_dies_with_its_host(self):
        process = self.start("sleep 600 & echo $! >left; wait")
        late = time.monotonic() + 10
        while not (self.room / "left").exists() or not (self.room / "left").read_text(encoding="utf-8"):
            self.assertLess(time.monotonic(), late)
            time.sleep(0.02)
        process.stdin.close()
        self.assertEqual(process.wait(10), -signal.SIGKILL)
        self.assertEqual(process.stdout.read(), b"")
        process.stdout.close()
        self.wait_until_gone()

    def wait_until_gone(self):
        """Waits until the process that a check has left is gone, or is no more than a number."""
        status = Path(f"/proc/{(self.room / 'left').read_text(encoding='utf-8').strip()}/stat")
        late = time.monotonic() + 10
        while status.exists() and ") Z " not in status.read_text(encoding="utf-8"):
            self.assertLess(time.monotonic(), late)
            time.sleep(0.02)
        (self.room / "left").unlink()


if __name__ == "__main__":
    unittest.main()
