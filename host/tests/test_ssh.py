"""Tests of what people may ask for over ssh: as tables, and with a real sshd and the commands of docs/trusting-the-host.md.
`.ci/test_gate_host` runs them.

with_sshd.py has the machine with the real sshd.
"""
import io
import os
import shlex
import shutil
import sys
import tempfile
import unittest
from concurrent.futures import ThreadPoolExecutor
from contextlib import redirect_stderr
from pathlib import Path
from unittest import mock

TESTS = Path(__file__).resolve().parent
TOP = TESTS.parent.parent
sys.path[:0] = [str(TESTS.parent), str(TESTS)]

from gate_host import ssh_command  # noqa: E402
from gate_host.core.notes import MOST_IN_COMMENT  # noqa: E402
from gate_host.places import Places  # noqa: E402
from gate_host.setting_up import make_folders  # noqa: E402
from with_sshd import ACCOUNT, SCP, SFTP, WithSshd, blocks_of_page  # noqa: E402

NOTHING_ELSE = (
    "this account runs git and gate-host say, queue, change, log, status, explain, what-if, freeze and thaw, and no other command"
)
NO_REPOSITORY = "there is no such repository here, but "
ONE_PATH = " takes the path of a repository here, and nothing else"
OPEN_QUOTE = "a quote in it isn't closed"
OF_SAY = "ask for it as gate-host say CHANGE [TEXT] [--head COMMIT], if need be with --repository NAME. A text in which a word"
OF_QUEUE = "ask for it as gate-host queue [--json], if need be with --repository NAME"
OF_CHANGE = "ask for it as gate-host change NUMBER [--json], if need be with --repository NAME"
OF_LOG = "ask for it as gate-host log NUMBER [--all] [--json], if need be with --repository NAME"
OF_STATUS = "ask for it as gate-host status COMMIT NAME STATE [--description TEXT], if need be with --repository NAME"
HEAD = "0123456789" * 4


class Executed(Exception):
    """Git would now be in the place of the process."""


class AskedTests(unittest.TestCase):
    """What is asked for, and what is then run or refused. No process is started."""

    def setUp(self):
        room = tempfile.TemporaryDirectory()
        self.addCleanup(room.cleanup)
        self.room = Path(os.path.realpath(room.name))
        self.home, self.project, self.own = self.room / "home", self.room / "srv/project.git", self.room / "home/own.git"
        for repository in (self.project, self.own):
            (repository / "hooks").mkdir(parents=True)
            (repository / "hooks/pre-receive").touch(0o755)
            make_folders(Places(repository))
        (self.home / "link.git").symlink_to(self.project)
        (self.home / "up").symlink_to(self.project.parent)
        self.addCleanup(os.umask, os.umask(0o077))
        variables = mock.patch.dict(os.environ, {"HOME": str(self.home)})
        variables.start()
        self.addCleanup(variables.stop)
        self.ran = None

    def execute(self, program, words, environment):
        self.ran = ([program == words[0], *words], environment)
        raise Executed

    def do_job(self, words):
        said = [sys.stdin.read()] if words[0] == "say" else []
        self.ran = ([*words, *said], dict(os.environ))
        return 0

    def ask(self, asked, given=b"", who="Alice", repositories=None):
        """What comes of it: the status, and either the command of git, the words of a job with its text, or the refusal."""
        self.ran = None
        named = [self.project] if repositories is None else repositories
        said = io.StringIO()
        stdin = io.TextIOWrapper(io.BytesIO(given), encoding="utf-8")
        with mock.patch.dict(os.environ), mock.patch("os.execvpe", self.execute), mock.patch("gate_host.commands.main", self.do_job), \
                mock.patch("sys.stdin", stdin), redirect_stderr(said):
            try:
                status = ssh_command.serve(who, named, asked)
            except Executed:
                status = None
        return status, self.ran[0] if self.ran else said.getvalue()

    def refused(self, asked, why, **more):
        """Nothing is run, and one line says why."""
        status, said = self.ask(asked, **more)
        self.assertEqual(status, 1, asked)
        self.assertIsInstance(said, str, asked)
        self.assertTrue(said.startswith(f"gate-host: {why}"), f"{asked!r} is refused by {said}")
        self.assertEqual(said.count("\n"), 1, said)

    def runs_git(self, asked, service, repository=None, **more):
        place = str(repository or self.project)
        words = {
            "receive-pack": ["-c", f"core.hooksPath={place}/hooks", "receive-pack", place],
            "upload-pack": ["upload-pack", "--strict", place],
            "upload-archive": ["upload-archive", place],
        }
        self.assertEqual(self.ask(asked, **more), (None, [True, "git", "--no-replace-objects", *words[service]]), asked)

    def runs_job(self, asked, *words, repository=None, **more):
        job, *rest = words
        self.assertEqual(self.ask(asked, **more), (0, [job, "--repository", str(repository or self.project), *rest]), asked)

    def test_a_status_is_reported(self):
        for asked, *due in (
            (f"status {HEAD} build success", HEAD, "build", "success"),
            (f"gate-host status {HEAD} 'on arm' error", HEAD, "on arm", "error"),
            (f"status {HEAD} build pending --description=--x", "--description=--x", HEAD, "build", "pending"),
        ):
            self.runs_job(asked, "status", *due)
        for asked in ("status", f"status {HEAD} build", f"status {HEAD[1:]} build success", f"status {HEAD} build fine",
                      f"status {HEAD} '- x' success", f"status {HEAD} build success more", f"status --head {HEAD} build success"):
            self.refused(asked, OF_STATUS)

    def test_an_explanation_is_asked_for(self):
        for asked, *due in (
            ("explain 7", "7"), ("gate-host explain 7 --at tick-17.0", "--at=tick-17.0", "7"),
            ("explain --json --at=31 7", "--at=31", "--json", "7"), ("explain 7 --at --json", "--at=--json", "7"),
        ):
            self.runs_job(asked, "explain", *due)
        for asked in ("explain", "explain x", "explain 7 8", "explain 7 --json=yes", "explain 7 --program /bin/sh", "explain 7 --all",
                      "explain 7 --at 1 --at 2"):
            self.refused(asked, "ask for it as gate-host explain NUMBER [--at DELIVERY] [--json], if need be with --repository NAME")
        for asked in ("explain 7 --at ''", "explain 7 --at 'a b'", f"explain 7 --at={'x' * 129}"):
            self.refused(asked, "--at takes the identifier of a delivery or its number")

    def test_other_settings_come_on_standard_input(self):
        """No file of the account can be named."""
        for asked, *due in (
            ("what-if", "--settings=-"), ("gate-host what-if --settings -", "--settings=-"),
            ("what-if --json --since 2026-11-30T12:00", "--since=2026-11-30T12:00", "--settings=-", "--json"),
        ):
            self.runs_job(asked, "what-if", *due)
        for asked in ("what-if --settings /etc/passwd", "what-if --settings=bors.toml", "what-if --settings ''"):
            self.refused(asked, "by ssh settings come on standard input: ask for what-if --settings -, with the file behind <")
        for asked in ("what-if 7", "what-if - --at 3", "what-if --program /bin/sh"):
            self.refused(asked, "ask for it as gate-host what-if --settings - [--since DATE] [--json], if need be with --repository NAME")
        self.refused("what-if --since 'a b'", "--since takes a date, as in 2026-11-30T12:00, or the identifier of a delivery")

    # Git

    def test_services_of_git_are_run(self):
        for service in ("receive-pack", "upload-pack", "upload-archive"):
            for asked in (f"git-{service} 'project.git'", f"git {service} project.git", f"  git-{service}\t\"project.git\" "):
                self.runs_git(asked, service)

    def test_paths_that_mean_a_repository(self):
        place = str(self.project)
        for path in (place, f"{place}/", f"/{place}", place.replace("/", "//./"), "project.git"):
            self.runs_git(f"git-upload-pack '{path}'", "upload-pack")
        both = [self.project, self.own]
        for path in ("own.git", "~/own.git", "./own.git/", "~//own.git", str(self.own)):
            self.runs_git(f"git-receive-pack '{path}'", "receive-pack", self.own, repositories=both)
        self.runs_git("git-upload-pack project.git", "upload-pack", repositories=both)

    def test_a_repository_that_is_named_by_a_link(self):
        """It is found by both paths, and what is opened is where it leads."""
        for path in ("link.git", "~/link.git", str(self.home / "link.git"), str(self.project)):
            self.runs_git(f"git-receive-pack {path}", "receive-pack", repositories=[self.home / "link.git"])

    def test_a_home_that_is_a_link(self):
        (self.room / "elsewhere").symlink_to(self.home)
        with mock.patch.dict(os.environ, {"HOME": str(self.room / "elsewhere")}):
            for named in (self.own, self.room / "elsewhere/own.git"):
                self.runs_git("git-upload-pack ./own.git", "upload-pack", self.own, repositories=[named])
            self.runs_git("git-upload-pack ./link.git", "upload-pack", repositories=[self.room / "elsewhere/link.git"])

    def test_paths_that_mean_none(self):
        place = str(self.project)
        for path in (
            "", "/", ".", "~", "~/", "..", "own.git", str(self.own), f"{place}/..", f"{place}/../project.git", f"{place}/hooks",
            f"{place}.", "../srv/project.git", "~/../srv/project.git", "up/project.git", "~/up/project.git", "link.git", "project",
            "project.git\n", "\nproject.git", "project.git\n-x", f"~{ACCOUNT}/project.git", "*", "$HOME/own.git", "/etc", "PROJECT.GIT",
            "\ud800", "x" * 9000,
        ):
            self.refused(f"git-upload-pack {shlex.quote(path)}", f"{NO_REPOSITORY}{place}")
            self.refused(f"gate-host queue --repository {shlex.quote(path)}", f"{NO_REPOSITORY}{place}")

    def test_a_last_name_that_two_have_means_none(self):
        other = self.room / "other/project.git"
        shutil.copytree(self.project, other)
        both = [self.project, other]
        self.refused("git-upload-pack project.git", NO_REPOSITORY, repositories=both)
        self.runs_git(f"git-upload-pack {other}", "upload-pack", other, repositories=both)
        self.runs_git("git-upload-pack project.git", "upload-pack", repositories=[self.project, self.project])

    def test_a_path_from_the_home_folder_goes_before_a_last_name(self):
        other = self.room / "other/own.git"
        shutil.copytree(self.own, other)
        for both in ([self.own, other], [other, self.own]):
            self.runs_git("git-upload-pack own.git", "upload-pack", self.own, repositories=both)

    def test_git_takes_nothing_but_a_path(self):
        for service in ("receive-pack", "upload-pack", "upload-archive"):
            for more in (
                "", "project.git; sh", "project.git ; sh", "project.git && sh", "project.git project.git", "--stateless-rpc project.git",
                "--upload-pack='sh -c id' project.git", "-- project.git", "--help", "-project.git", "--advertise-refs", "project.git -q",
            ):
                self.refused(f"git-{service} {more}", f"git {service}{ONE_PATH}")
        for path in ("`id`", "'$(id)'", "project.git;sh", "project.git|sh", "project.git>x", "project.git\nsh", "project.git\rsh"):
            self.refused(f"git-receive-pack {path}", NO_REPOSITORY)

    def test_other_commands_are_refused(self):
        for asked in (
            "sh", "bash -i", "git", "git push", "git -c core.hooksPath=/dev/null receive-pack project.git", "git --version", "git-shell",
            "git git-receive-pack project.git", "git-git receive-pack project.git", "gate-host", "gate-host gate-host queue",
            "gate-host git-receive-pack project.git", "gate-host run project.git", "gate-host init project.git", "gate-host hook",
            "gate-host ssh eve project.git", "gate-host --help", "gate-host -h", "-h", "--", "''", "'' sh", "scp -t /tmp", "internal-sftp",
            "/usr/lib/openssh/sftp-server", "/usr/bin/git-receive-pack project.git", "GL_USER=eve git-receive-pack project.git",
            "exec git-receive-pack project.git", "git-upload-pack\nproject.git", "git-receive-packproject.git", "Say 1 x", "#", "\\", "'",
            "git-lfs-authenticate project.git upload", "git-http-backend", "git daemon", "x" * 16384,
        ):
            self.refused(asked, OPEN_QUOTE if asked in ("\\", "'") else NOTHING_ELSE)

    def test_what_is_too_long_is_refused(self):
        self.refused("git-upload-pack " + "x" * 16384, "what is asked for has more than 16384 characters")
        self.refused("say 1 " + "'" * 20000, "what is asked for has more than 16384 characters")

    def test_what_does_not_split_is_refused(self):
        for asked in ("git-upload-pack 'project.git", 'say 1 "x', "say 1 I don't know", "say 1 x\\"):
            self.refused(asked, OPEN_QUOTE)

    # Jobs of gate-host

    def test_jobs_are_run(self):
        for before in ("", "gate-host "):
            self.runs_job(f"{before}queue", "queue")
            self.runs_job(f"{before}change 7", "change", "7")
            self.runs_job(f"{before}queue --json", "queue", "--json")
            self.runs_job(f"{before}change 7 --json", "change", "--json", "7")
            self.runs_job(f"{before}log --json 7 --all", "log", "--all", "--json", "7")
            self.runs_job(f"{before}log 4294967295", "log", "4294967295")
            self.runs_job(f"{before}log --all 7", "log", "--all", "7")
            self.runs_job(f"{before}log 7 --repository=project.git --all", "log", "--all", "7")

    def test_what_is_said(self):
        for asked, text in {
            "say 1 'bors r+'": "bors r+",
            "say 1 bors r+": "bors r+",
            "gate-host say 1  bors   r+ ": "bors r+",
            "say 1 'I like it\nbors r+'": "I like it\nbors r+",
            "say 1 I like it\nbors r+": "I like it\nbors r+",
            "say 1 bors r+; sh # $(id) `id`": "bors r+; sh # $(id) `id`",
            "say 1 one - two": "one - two",
            "say 1 '- one\n- two'": "- one\n- two",
            "say 1 '--verbose is missing'": "--verbose is missing",
            "say 1 '' x": " x",
            "say 1 -  -": "- -",
            "say 1 2": "2",
            "say 1 gr\u00fc\u00df dich \u2713": "gr\u00fc\u00df dich \u2713",
            # What isn't UTF-8 comes from the environment so.
            "say 1 \udcff!": "\ufffd!",
        }.items():
            self.runs_job(asked, "say", "1", "-", text)
        self.runs_job("say 1 " + "x" * 16000, "say", "1", "-", "x" * 16000)

    def test_what_is_said_comes_on_standard_input(self):
        for asked in ("say 1", "gate-host say 1 -", "say --repository project.git 1"):
            self.runs_job(asked, "say", "1", "-", "--x\n'y\u2713'\n", given="--x\n'y\u2713'\n".encode())
            self.runs_job(asked, "say", "1", "-", "-", given=b"-")
            self.runs_job(asked, "say", "1", "-", "a\ufffd\x00b", given=b"a\xff\x00b")
            self.refused(asked, "there is no text to say", given=b" \n")

    def test_no_more_is_read_than_a_comment_may_have(self):
        status, ran = self.ask("say 1", given=b"x" * 1_000_000)
        self.assertEqual((status, len(ran[-1])), (0, 4 * MOST_IN_COMMENT + 1))
        _, ran = self.ask("say 1", given="\U0001f600".encode() * MOST_IN_COMMENT)
        self.assertEqual(ran[-1], "\U0001f600" * MOST_IN_COMMENT)

    def test_a_head_is_named_anywhere(self):
        for asked in (f"say --head {HEAD} 1 bors r+", f"say 1 --head={HEAD} bors r+", f"say 1 bors r+ --head {HEAD}"):
            self.runs_job(asked, "say", "--head", HEAD, "1", "-", "bors r+")

    def test_heads_that_are_none(self):
        for head in ("", "x", HEAD[1:], HEAD + "0", HEAD.replace("1", "A"), f"{HEAD}\n", f"-{HEAD[1:]}", "--all", "\u0661" * 40):
            self.refused(f"say 1 --head {shlex.quote(head)} x", "--head takes a commit")
        self.refused("say 1 x --head", "--head takes a commit")

    def test_words_that_are_not_in_the_list_are_refused(self):
        for why, every in {
            OF_SAY: (
                "say", "say x", "say 0 x", "say -1 x", "say 01 x", "say 1_0 x", "say 1\nx y", "say '1 ' x", "say 12345678901 x",
                "say \u0661 x", "say 1\u0661 x", "say 1 x --hea y", "say 1 x -h", "say 1 --help", "say 1 x --", "say 1 -- x", "say 1 -x",
                "say 1 x --program=sh", "say 1 x --all", f"say 1 x --head {HEAD} --head {HEAD}",
                "say --repository project.git --repository project.git 1 x",
            ),
            OF_QUEUE: ("queue 1", "queue --json=x", "queue --all", "queue --help", "queue -", "queue ''", "queue '- x'"),
            OF_CHANGE: ("change", "change x", "change 1 2", "change -- 1", "change --all 1", "change 1 -", "change ../1", "change '1\n'"),
            OF_LOG: ("log", "log 1 2", "log --all", "log 1 --all=x", "log 1 --all --all", "log 1 --al", "log --outputs 1", "log ../../1"),
        }.items():
            for asked in every:
                self.refused(asked, why)
                self.refused(f"gate-host {asked}", why)

    def test_of_several_repositories_one_is_named(self):
        both = [self.project, self.own]
        for asked in ("queue", "log 1", "say 1 x"):
            self.refused(asked, f"say by --repository which one you mean of {self.project}, {self.own}", repositories=both)
        self.runs_job("queue --repository own.git", "queue", repository=self.own, repositories=both)
        self.runs_job(f"say 1 --repository={self.project} x", "say", "1", "-", "x", repositories=both)
        self.refused("queue --repository", NO_REPOSITORY, repositories=both)

    # Who it is, and what surrounds it

    def test_a_name_that_is_none_is_refused(self):
        for who in ("", "al ice", "alice\n", "a" * 65, "../x", "al\u00efce"):
            for asked in ("git-receive-pack project.git", "queue", ""):
                self.refused(asked, "the command of your key names a person whose name the bot doesn't take", who=who)

    def test_who_asks_for_nothing_is_told_so(self):
        for asked in ("", " ", "\n\t"):
            self.refused(asked, f"you are alice here. Clone, fetch and push {self.project}, or ask for gate-host say", repositories=None)

    def test_the_environment_is_made_anew(self):
        sent = {
            "GL_USER": "eve", "GIT_DIR": "/x", "GIT_CONFIG_COUNT": "1", "GIT_TRACE": "/x", "GIT_EXEC_PATH": "/x",
            "GIT_PROTOCOL": "version=2", "LD_PRELOAD": "/x", "PYTHONPATH": "/x", "BASH_ENV": "/x", "LC_ALL": "../x", "GATE_CHECK": "x",
            "XDG_CONFIG_HOME": "/x", "PWD": "/x",
        }
        kept = {"HOME": str(self.home), "PATH": "/bin", "LOGNAME": "git", "USER": "git", "SSH_CLIENT": "::1 1 2", "SSH_CONNECTION": "::1"}
        due = {**kept, "GL_USER": "alice", "LC_ALL": "C.UTF-8", "GIT_PROTOCOL": "version=2"}
        for asked in ("git-receive-pack project.git", "git-upload-archive project.git", "queue", "say 1 x"):
            with mock.patch.dict(os.environ, {**sent, **kept}, clear=True):
                self.ask(asked)
            self.assertEqual(self.ran[1], due)

    def test_a_protocol_of_git_is_kept_if_it_is_one(self):
        for value, is_kept in {
            "version=0": True, "version=1": True, "version=2": True, "version=3": False, "": False, "version=2\n": False,
            "version=2:x=y": False, "x:version=2": False, "version=22": False,
        }.items():
            with mock.patch.dict(os.environ, {"GIT_PROTOCOL": value}):
                self.ask("git-upload-pack project.git")
            self.assertEqual(self.ran[1].get("GIT_PROTOCOL"), value if is_kept else None)

    def test_what_is_shown_is_in_utf_8(self):
        """Whatever language the client has named."""
        shown = io.TextIOWrapper(io.BytesIO(), encoding="ascii")
        with mock.patch.dict(os.environ), mock.patch("gate_host.commands.main", lambda _: print("\u2713")), mock.patch("sys.stdout", shown):
            ssh_command.serve("alice", [self.project], "queue")
            shown.flush()
        self.assertEqual(shown.buffer.getvalue().decode(), "\u2713\n")

    def test_files_that_are_made_can_be_read(self):
        self.ask("queue")
        self.assertEqual(os.umask(0o077), 0o022)

    def test_a_repository_without_the_hook_is_not_pushed_to(self):
        hook = self.project / "hooks/pre-receive"
        for spoil in (lambda: hook.chmod(0o644), hook.unlink):
            spoil()
            self.refused("git-receive-pack project.git", f"{self.project} has no hook, so nobody pushes there")
        self.runs_git("git-upload-pack project.git", "upload-pack")

    def test_a_repository_of_somebody_else_is_not_written(self):
        """There all would count as said by the account."""
        with mock.patch("os.geteuid", lambda: os.getuid() + 1):
            for asked in ("git-receive-pack project.git", "say 1 x"):
                self.refused(asked, f"{self.project}/gate isn't yours")

    def test_a_folder_that_others_may_write_is_not_written(self):
        (self.project / "gate").chmod(0o777)
        for asked in ("git-receive-pack project.git", "say 1 x"):
            self.refused(asked, f"others may write {self.project}/gate")

    def test_a_folder_that_is_not_there_is_not_written(self):
        shutil.rmtree(self.project / "gate")
        for asked in ("git-receive-pack project.git", "say 1 x"):
            self.refused(asked, f"{self.project}")

    def test_git_that_is_not_there_is_told(self):
        said = io.StringIO()
        with mock.patch.dict(os.environ, {"PATH": str(self.home)}), redirect_stderr(said):
            self.assertEqual(ssh_command.serve("alice", [self.project], "git-upload-pack project.git"), 1)
        self.assertIn("No such file", said.getvalue())


# With a real sshd


class OverSsh(WithSshd):
    """What people do and can't do by ssh."""

    def no_way_to_main(self, place, *words, more=()):
        """A push to the main branch moves nothing. What is said of it is given."""
        before = self.main()
        ran = self.run_it("git", "push", *words, "origin", "HEAD:main", at=place, person="eve", more=more)
        self.assertNotEqual(ran.returncode, 0, ran.stderr)
        self.assertEqual(self.main(), before)
        return ran.stderr

    # What becomes of it

    def test_the_commands_of_the_page_land_a_change(self):
        *commands_typed, last = blocks_of_page()[1].splitlines()
        self.must_run("bash", "-e", "-c", "\n".join(commands_typed))
        self.log_says(1, "Landed on main")
        shown = self.must_run("bash", "-e", "-c", last)
        self.assertEqual(shown.count("alice wrote:\n    > bors r+\n"), 1, shown)
        self.assertIn("  Landed on main as ", shown)

    def test_who_pushes_is_the_author_and_a_reviewer_approves(self):
        place = self.push("eve", 2)
        said = self.ssh("say", "2", "'bors r+'", person="eve")
        self.assertEqual((said.returncode, said.stdout.split(" of ")[0]), (0, "said by eve"), said.stderr)
        self.log_says(2, "eve wrote:\n    > bors r+\n", "gate: denied, that needs more rights than you have")
        self.assertIn("author    eve\n", self.must_run("ssh", "git@machine", "gate-host", "change", "2", person="eve"))
        self.assertIn("2", self.must_run("ssh", "git@machine", "queue"))
        for head, ends in (("0" * 40, 1), (self.must_run("git", "rev-parse", "HEAD", at=place).strip(), 0)):
            said = self.ssh("gate-host", "say", "2", "--head", head, "-", given="looks good\nbors r+\n")
            self.assertEqual(said.returncode, ends, said.stderr)
        self.log_says(2, "alice wrote:\n    > looks good\n    > bors r+\n", "Landed on main")

    def test_nobody_moves_main(self):
        place = self.commit("eve")
        self.assertIn("gate: main moves by the queue alone", self.no_way_to_main(place, "--force", "--no-verify"))
        by_other = "--receive-pack=git -c core.hooksPath=/dev/null receive-pack"
        self.assertIn(f"gate-host: {NOTHING_ELSE}", self.no_way_to_main(place, by_other))
        self.assertIn(ONE_PATH, self.no_way_to_main(place, "--receive-pack=git-receive-pack --stateless-rpc"))

    def test_no_setting_turns_the_hook_off(self):
        """Neither one of the account or the repository, nor one that a client sends."""
        place = self.commit("eve")
        off = ("core.hooksPath", "/dev/null")
        (self.home / ".gitconfig").write_text("[core]\n    hooksPath = /dev/null\n", encoding="utf-8")
        self.must_run("git", "--git-dir", self.repository, "config", *off)
        try:
            said = self.no_way_to_main(place)
        finally:
            self.must_run("git", "--git-dir", self.repository, "config", "--unset", off[0])
            (self.home / ".gitconfig").unlink()
        self.assertIn("gate: main moves by the queue alone", said)
        sent = f"SetEnv=GIT_CONFIG_COUNT=1 GIT_CONFIG_KEY_0={off[0]} GIT_CONFIG_VALUE_0={off[1]} GIT_TRACE={self.home}/trace"
        said = self.no_way_to_main(place, more={"GIT_SSH_COMMAND": f"ssh -o {shlex.quote(sent)}"})
        self.assertIn("gate: main moves by the queue alone", said)
        # Git would have written this file.
        self.assertFalse((self.home / "trace").exists())

    def test_nobody_is_somebody_else(self):
        more = {"GL_USER": "alice", "GIT_SSH_COMMAND": "ssh -o SendEnv=GL_USER"}
        self.push("eve", 3, more=more)
        said = self.run_it("ssh", "-o", "SendEnv=GL_USER", "git@machine", "say 3 hello", person="eve", more=more)
        self.assertEqual((said.returncode, said.stdout.split(" of ")[0]), (0, "said by eve"), said.stderr)
        report = self.repository / "gate/reports/change-3"
        self.assertTrue(self.comes_about(report.exists))
        self.assertIn("author    eve\n", report.read_text(encoding="utf-8"))

    def test_other_commands_are_refused_there(self):
        every = {
            "sh": NOTHING_ELSE, "git-receive-pack project.git; sh": ONE_PATH, "$(sh)": NOTHING_ELSE,
            "git-upload-pack --upload-pack='sh -c id' project.git": ONE_PATH, "git-receive-pack /etc": NO_REPOSITORY,
            "git-upload-pack\nproject.git": NOTHING_ELSE, "gate-host ssh alice project.git": NOTHING_ELSE,
            "git-receive-pack '": OPEN_QUOTE, "x" * 20000: "what is asked for has more",
        }
        with ThreadPoolExecutor(4) as threads:
            for asked, ran in zip(every, threads.map(lambda asked: self.ssh(asked, person="eve"), every)):
                self.assertEqual((ran.returncode, ran.stdout), (1, ""), asked)
                self.assertIn(every[asked], ran.stderr)

    def test_there_is_no_shell(self):
        commands_typed = f"touch {self.home}/come-in\nexit 0\n"
        for words, ends, said in (
            ((), 1, "gate-host: you are eve here."), (("-tt",), 255, "PTY allocation request failed"),
        ):
            ran = self.run_it("ssh", "-o", "LogLevel=INFO", *words, "git@machine", given=commands_typed, person="eve")
            self.assertEqual((ran.returncode, ran.stdout), (ends, ""), words)
            self.assertIn(said, ran.stderr)
        self.assertFalse((self.home / "come-in").exists())

    def test_no_file_is_carried(self):
        file, there = self.room / "people/file", self.home / "carried"
        file.write_text("x", encoding="utf-8")
        place = f"git@machine:{there}"
        for tool, *words in ((SCP, file, place), (SCP, "-O", file, place), (SFTP, "-b", "-", "git@machine")):
            ran = self.run_it(tool, "-S", self.tools / "ssh", *words, given=f"put {file} {there}\n", person="eve")
            self.assertNotEqual(ran.returncode, 0)
        self.assertFalse(there.exists())

    def test_no_port_is_forwarded(self):
        """Neither there nor back. This sshd forwards for a key without `restrict`."""
        there = ("ssh", "-o", "LogLevel=INFO", "-W", f"127.0.0.1:{self.port}", "git@machine")
        ran = self.run_it(*there, person="eve")
        self.assertEqual((ran.returncode, ran.stdout), (255, ""))
        self.assertIn("administratively prohibited", ran.stderr)
        self.assertIn("SSH-2.0", self.run_it(*there, person="free").stdout)
        back = self.run_it("ssh", "-N", "-o", "ExitOnForwardFailure=yes", "-R", "0:127.0.0.1:1", "git@machine", person="eve")
        self.assertEqual(back.returncode, 255)
        self.assertIn("forwarding failed", back.stderr)

    def test_what_is_read_is_given(self):
        """By git's own protocols, one of which is named by a variable, and by each way to name the repository."""
        places = ("git@machine:project.git", f"ssh://git@machine{self.repository}", f"git@machine:{self.repository}/")
        for version, place in zip("012", places):
            ran = self.run_it("git", "-c", f"protocol.version={version}", "ls-remote", place, "main", more={"GIT_TRACE_PACKET": "1"})
            self.assertTrue(ran.stdout.endswith("\trefs/heads/main\n"), ran.stderr)
            self.assertEqual(f"ls-remote< version {version}" in ran.stderr, version != "0", ran.stderr)
        archive = self.must_run("git", "archive", "--remote=git@machine:project.git", "main", "bors.toml", person="eve")
        self.assertIn("status = ", archive)
