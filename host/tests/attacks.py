"""Attacks on a host that guards a real git repository, by whoever may push to it or write its files. `.ci/test_attacks` plays them.

Each is a story of its own, and fails if the attack succeeds. Each has been seen to succeed on the host that didn't know of it. The users
are told by the variable of gitolite here; attacks_on_notes.py has those that need several users of the system.
"""
import os
import pwd
import shlex
import shutil
import sqlite3
import subprocess
import sys
import time
from contextlib import closing
from pathlib import Path

from audit_plants import audited
from stories import GIT, HOST, TESTS, Failed, Story, must, run, want, why_not

# How long a host that must not do something is watched.
WATCHED = 2.0
# How long a host may take that is to end at once, on a machine that has other work.
SECONDS_TO_END = 40


class Attack(Story):
    """A story with a host at work, and changes of its own."""

    changes = ()
    # The kinds of what an audit finds when all is over.
    leaves = frozenset()

    def allowed(self):
        """Who may have pushed past the queue, as an audit is told it."""
        return [it for name in self.may_push for it in ("--allow", name)]

    def told(self, change, *words):
        self.until(f"the log of change {change} says {words}", lambda: all(it in self.report(f"log-{change}") for it in words))

    def events(self, name):
        return [it for it, _ in self.recorded() if it["event"] == name]

    def complained(self, words):
        return words in self.errors.read_text(encoding="utf-8")

    def tree_of(self, commit, *paths):
        """The files of a commit as a clone gets them."""
        return self.must_git("--no-replace-objects", "ls-tree", "-r", "--name-only", commit, *paths).split()

    def write(self, text, *arguments):
        """Has git write an object, and gives its name."""
        ran = run(GIT, "-C", self.repository, *arguments, input=text)
        want(f"how git {arguments} ends, which says {ran.stderr}", ran.returncode, 0)
        return ran.stdout.strip()

    def stage_what_waits(self):
        """Has change 1 approved and staged. Its check waits until a file is gone, which is given."""
        wait = self.room / "wait"
        wait.touch()
        self.push("otto", 1, {"parts/good": f"while test -e {wait}; do sleep 0.1; done\n"})
        self.until("the change is open", lambda: self.report("change-1"))
        self.say("rosa", 1, "bors r+")
        self.until("it is staged", lambda: "staging staged" in self.report("queue"))
        return wait

    def start_fails(self, *words):
        """A host that is started ends at once with status 1, and says why."""
        try:
            ran = run(*self.host_command(), timeout=SECONDS_TO_END)
        except subprocess.TimeoutExpired:
            raise Failed("the host goes on, and should end at once") from None
        want(f"how the host ends, which says {ran.stderr}", ran.returncode, 1)
        for word in words:
            must(f"whether it says {word!r} in {ran.stderr}", word in ran.stderr)

    def doctor(self):
        ran = self.host("doctor", str(self.repository))
        return ran.returncode, ran.stdout

    def audit(self, *words):
        """The kinds of what an audit finds, beside a host at work."""
        return audited(self.repository, self.program, *words)[1]


class ReplacedHead(Attack):
    """Somebody replaces the head that was approved by another commit, for git alone: by a push, and by a file."""

    leaves = {"replacement"}

    def happen(self):
        head = self.push("otto", 1, {"parts/good": "test 1 -gt 0\n"})
        evil = self.commit(["--detach", self.first], {"parts/evil": "test 1 -gt 0\n"}, "evil")
        pushed = self.git("push", "origin", f"{evil}:refs/replace/{head}", at=self.clone, person="otto")
        self.must_git("push", "--quiet", "origin", f"{evil}:refs/heads/other", at=self.clone, person="otto")
        self.must_git("update-ref", f"refs/replace/{head}", evil)
        self.until("the change is open", lambda: self.report("change-1"))
        self.say("rosa", 1, "bors r+")
        self.told(1, "Landed on main")
        files = self.tree_of("main")
        must(f"whether what was approved has landed, by {files}", "parts/good" in files and "parts/evil" not in files)
        want("what a push of a replacement says", pushed, None)
        must("whether the host says that it stands there", "refs/replace" in self.doctor()[1])
        want("what an audit finds", self.audit(), {"replacement"})


class ReplacedFile(Attack):
    """Somebody replaces a file that fails its check by one that doesn't, and the settings by some that ask for less."""

    leaves = {"replacement"}

    def happen(self):
        self.push("otto", 1, {"parts/bad": "echo broken; test 1 -gt 2\n"})
        bad, good = (self.write(text, "hash-object", "-w", "--stdin") for text in ("echo broken; test 1 -gt 2\n", "test 1 -gt 0\n"))
        self.must_git("update-ref", f"refs/replace/{bad}", good)
        asked = self.must_git("rev-parse", "main:bors.toml")
        self.must_git("update-ref", f"refs/replace/{asked}", self.write('status = ["lint"]\n', "hash-object", "-w", "--stdin"))
        self.until("the change is open", lambda: self.report("change-1"))
        self.say("rosa", 1, "bors r+")
        self.told(1, "(Failed)")
        want("where main is", self.git("rev-parse", "main"), self.first)
        want("the settings", [it["text"] for it in self.events("settings")], ['status = ["build", "lint"]\n'])


class ForgedObject(Attack):
    """Who can write the files puts other contents under the name of a file that was approved."""

    def happen(self):
        self.must_git("config", "receive.unpackLimit", "1000")
        text = "echo broken; test 1 -gt 2\n"
        self.push("otto", 1, {"parts/bad": text})
        bad, good = self.write(text, "hash-object", "--stdin"), self.write("test 1 -gt 0\n", "hash-object", "-w", "--stdin")
        place = self.repository / "objects" / bad[:2] / bad[2:]
        must("whether the file is an object of its own", place.exists())
        place.unlink()
        shutil.copy(self.repository / "objects" / good[:2] / good[2:], place)
        self.until("the change is open", lambda: self.report("change-1"))
        self.say("rosa", 1, "bors r+")
        self.until("the comment was answered", lambda: "> bors r+" in self.report("log-1"))
        time.sleep(WATCHED)
        want("where main is", self.git("rev-parse", "main"), self.first)
        self.told(1, "can't be read whole")


class Graft(Attack):
    """Who can write the files has git take the head for a commit that is on the main branch already."""

    leaves = {"replacement"}

    def happen(self):
        head = self.push("otto", 1, {"parts/good": "test 1 -gt 0\n"})
        (self.repository / "info").mkdir(exist_ok=True)
        (self.repository / "info/grafts").write_text(f"{head}\n", encoding="utf-8")
        self.until("the change is open", lambda: self.report("change-1"))
        self.say("rosa", 1, "bors r+")
        self.told(1, "Landed on main")
        must("whether it says that grafts stand there", "info/grafts" in self.doctor()[1])
        want("what an audit finds", self.audit(), {"replacement"})


class OtherName(Attack):
    """A push to another name of the main branch moves it, and the hook is told the other name."""

    def happen(self):
        self.keep_running()
        self.until("the host runs", lambda: self.report("process"))
        self.must_git("symbolic-ref", "refs/heads/master", "refs/heads/main")
        self.commit(["--detach", self.first], {"past": "1\n"}, "past")
        self.git("push", "origin", "HEAD:refs/heads/master", at=self.clone, person="otto")
        want("where main is", self.git("rev-parse", "main"), self.first)
        self.until("the queue says so", lambda: "refs/heads/master is another name of" in self.report("queue"))
        self.stop()
        self.start_fails("refs/heads/master is another name of refs/heads/main")
        want("how init ends", self.host("init", str(self.repository)).returncode, 1)
        self.must_git("symbolic-ref", "--delete", "refs/heads/master")


class NoHook(Attack):
    """Git runs other hooks, or none: the host doesn't start, and so does init not end as if all were well."""

    def happen(self):
        hook = self.repository / "hooks/pre-receive"
        (self.room / "hooks").mkdir()
        self.must_git("config", "core.hooksPath", str(self.room / "hooks"))
        self.start_fails("core.hooksPath")
        want("how init ends", self.host("init", str(self.repository)).returncode, 1)
        want("how the doctor ends", self.doctor()[0], 1)
        self.must_git("config", "--unset", "core.hooksPath")
        hook.chmod(0o644)
        self.start_fails("can't be executed")
        hook.rename(self.room / "hook")
        self.start_fails("isn't there")
        (self.room / "hook").rename(hook)
        hook.chmod(0o755)
        self.must_git("symbolic-ref", "HEAD", "refs/heads/other")
        self.keep_running()
        self.until("the queue says where HEAD is", lambda: "HEAD names refs/heads/other" in self.report("queue"))


class Stray(Attack):
    """Who pushes by path moves the main branch past the hook. It is told at once, until the owner takes it for right."""

    # What the owner took for right, whom the last audit isn't told.
    leaves = {"past the queue"}

    def happen(self):
        self.keep_running()
        self.until("there is a base", lambda: f"base {self.first}" in self.report("queue"))
        commit = self.commit(["--detach", self.first], {"past": "1\n"}, "past")
        self.must_git("push", "--quiet", "origin", "HEAD:refs/heads/other", at=self.clone, person="otto")
        self.must_git("update-ref", "refs/heads/main", commit)
        self.until("the queue says so", lambda: f"trouble: the main branch was moved from {self.first} to {commit}" in self.report("queue"))
        must("whether the log of the host says so", self.complained(f"was moved from {self.first} to {commit}"))
        status, said = self.doctor()
        want("how the doctor ends", status, 1)
        must(f"whether the doctor says so in {said}", f"to {commit}" in said)
        want("what an audit finds", self.audit("--allow", "ines"), {"past the hook"})
        self.stop()
        want("how the doctor ends without a host", self.doctor()[0], 1)
        self.must_host("doctor", str(self.repository), "--accept", commit)
        self.keep_running()
        self.until("the queue says no more so", lambda: "trouble" not in self.report("queue") and f"base {commit}" in self.report("queue"))
        self.push_by_ines()
        time.sleep(WATCHED)
        must(f"whether a push of somebody who may is told as such, by {self.report('queue')}", "trouble" not in self.report("queue"))
        # The tree of the tests may lie in a folder that others can't enter.
        wrong = [line for line in self.doctor()[1].splitlines() if line.startswith("WRONG") and "can be run by some alone" not in line]
        want("what the doctor finds after that", wrong, [])
        owner = pwd.getpwuid(os.geteuid()).pw_name
        want("what an audit finds after that", self.audit("--allow", "ines"), {"past the queue"})
        want("what an audit finds that allows the owner too", self.audit("--allow", "ines", "--allow", owner), set())

    def push_by_ines(self):
        self.must_git("fetch", "--quiet", at=self.clone)
        commit = self.commit(["--detach", "origin/main"], {"allowed": "1\n"}, "allowed")
        self.must_git("push", "--quiet", "origin", "HEAD:main", at=self.clone, person="ines")
        self.until("the host has seen it", lambda: f"base {commit}" in self.report("queue"))


class NamedCommand(Attack):
    """Who can write the files names commands there, which the owner's git would run: for a missing object, and for a checkout."""

    def happen(self):
        marks = [self.room / name for name in ("fetched", "smudged", "watched")]
        fetch = self.make_tool("fetch", f"touch {shlex.quote(str(marks[0]))}\nexit 1\n")
        smudge = self.make_tool("smudge", f"touch {shlex.quote(str(marks[1]))}\nexec cat\n")
        watch = self.make_tool("watch", f"touch {shlex.quote(str(marks[2]))}\n")
        for name, value in (
            ("core.repositoryFormatVersion", "1"), ("extensions.partialClone", "evil"), ("remote.evil.url", f"file://{self.clone}"),
            ("remote.evil.uploadpack", str(fetch)), ("remote.evil.promisor", "true"), ("filter.evil.smudge", str(smudge)),
            ("core.fsmonitor", str(watch)),
        ):
            self.must_git("config", name, value)
        (self.repository / "info/attributes").write_text("* filter=evil\n", encoding="utf-8")
        self.push("otto", 1, {"parts/good": "test 1 -gt 0\n"})
        tree = self.write(f"100644 blob {'7' * 40}\tparts\n", "mktree", "--missing")
        head = self.write("", "commit-tree", tree, "-p", self.first, "-m", "missing")
        self.must_git("update-ref", "refs/heads/change/2", head)
        self.until("the changes are open", lambda: self.report("change-1") and self.report("change-2"))
        self.say("rosa", 1, "bors r+")
        self.say("rosa", 2, "bors r+")
        self.said.pop()
        self.until("it lands, or a command was run", lambda: 1 in self.landed() or any(it.exists() for it in marks))
        want("what was run", [mark.name for mark in marks if mark.exists()], [])
        self.told(2, "can't be read whole")
        must("whether the doctor says so", "names commands" in self.doctor()[1])


class BranchInTheWay(Attack):
    """A branch trying/x keeps git from making the branch trying. What waits for staging lands all the same."""

    def happen(self):
        self.keep_running()
        pushed = self.git("push", "origin", "HEAD:refs/heads/trying/x", at=self.clone, person="otto")
        self.must_git("update-ref", "refs/heads/trying/x", self.first)
        for change in (1, 2):
            self.push("otto", change, {f"parts/{change}": "test 1 -gt 0\n"})
            self.until(f"change {change} is open", lambda: self.report(f"change-{change}"))
        self.say("milo", 1, "bors try")
        self.until("the try is ordered", lambda: "trying  ordered" in self.report("queue"))
        self.say("rosa", 2, "bors r+")
        self.told(2, "Landed on main")
        self.told(1, "can't be staged yet, for a reason of the host")
        self.until("the queue says why", lambda: "refs/heads/trying/x is in the way" in self.report("queue"))
        want("what the push says", pushed, None)
        self.must_git("push", "--quiet", "origin", ":refs/heads/trying/x", at=self.clone, person="otto")
        self.told(1, "The try has passed")


class OwnStaging(Attack):
    """A team has its own branches staging and trying. Nothing that stands there is lost."""

    def make_repository(self):
        super().make_repository()
        self.other = self.room / "other.git"
        self.must_git("clone", "--quiet", "--bare", str(self.repository), str(self.other), at=self.room)
        self.own = self.commit(["--detach", self.first], {"own": "1\n"}, "own")
        for name in ("staging", "trying"):
            self.must_git("push", "--quiet", str(self.other), f"HEAD:refs/heads/{name}", at=self.clone)

    def happen(self):
        given = ["init", str(self.other), "--program", self.program, "--check=build=true"]
        ran = self.host(*given)
        must(f"whether init refuses by {ran.stderr}", ran.returncode == 1 and "would overwrite" in ran.stderr)
        self.must_host(*given, "--take")
        kept = self.must_git("for-each-ref", "--format=%(objectname) %(refname:short)", "refs/heads", at=self.other).splitlines()
        for name in ("staging", "trying"):
            must(f"whether it is kept by {kept}", f"{self.own} {name}-before-gate" in kept)
        self.the_first_batch_keeps_it()

    def the_first_batch_keeps_it(self):
        """What comes there later past the hook is kept as well."""
        self.must_git("push", "--quiet", "origin", "HEAD:refs/heads/team", at=self.clone)
        self.must_git("update-ref", "refs/heads/staging", self.own)
        self.push("otto", 1, {"parts/good": "test 1 -gt 0\n"})
        self.until("the change is open", lambda: self.report("change-1"))
        self.say("rosa", 1, "bors r+")
        self.told(1, "Landed on main")
        want("what is kept", self.git("rev-parse", f"refs/gate/kept/staging/{self.own}"), self.own)
        must("whether the host says so", self.complained("it is kept as refs/gate/kept/staging/"))


class OtherNames(Attack):
    """The names of the branches are settings."""

    def make_repository(self):
        super().make_repository()
        self.set("staging = staging", "staging = gate/tested")
        self.set("trying = trying", "trying = gate/tried")

    def happen(self):
        for name in ("staging", "trying"):
            self.must_git("update-ref", f"refs/heads/{name}", self.first)
        self.push("otto", 1, {"parts/good": "test 1 -gt 0\n"})
        self.until("the change is open", lambda: self.report("change-1"))
        self.say("milo", 1, "bors try")
        self.told(1, "The try has passed")
        self.say("rosa", 1, "bors r+")
        self.told(1, "Landed on main")
        want("where gate/tested is", self.git("rev-parse", "gate/tested"), self.git("rev-parse", "main"))
        want("where staging is", self.git("rev-parse", "staging"), self.first)
        want("a push", self.git("push", "origin", "HEAD:refs/heads/gate/tested", at=self.clone, person="otto"), None)


class StaleLock(Attack):
    """Git left a lock of the main branch. The batch waits for its removal, and isn't tested again and again."""

    def happen(self):
        lock = self.repository / "refs/heads/main.lock"
        lock.touch()
        self.push("otto", 1, {"parts/good": "test 1 -gt 0\n"})
        self.until("the change is open", lambda: self.report("change-1"))
        self.say("rosa", 1, "bors r+")
        self.until("the queue says why", lambda: "can't be landed yet" in self.report("queue") and "main.lock" in self.report("queue"))
        time.sleep(WATCHED)
        want("the refusals", self.events("refused"), [])
        os.utime(lock, (0, 0))
        must("whether the doctor says what to do", "remove it" in self.doctor()[1])
        lock.unlink()
        self.told(1, "Landed on main")
        want("how often it was staged", len(self.events("staged")), 1)


class StalledGit(Attack):
    """The host dies while a git of its own is about to move the main branch. Nothing else is reported until that git has ended."""

    def make_tools(self):
        git, mark, lock = (shlex.quote(str(it)) for it in (GIT, self.marks / "stalled", self.repository / "refs/heads/main.lock"))
        self.make_tool("git", f"""\
case "$*" in
*update-ref*refs/heads/main*|"push "*:refs/heads/main)
    if mkdir {mark} 2>/dev/null; then
        touch {lock}
        kill -9 "$PPID"
        sleep 3
        rm {lock}
    fi ;;
esac
exec {git} "$@"
""")

    def happen(self):
        self.push("otto", 1, {"parts/good": "test 1 -gt 0\n"})
        self.until("the change is open", lambda: self.report("change-1"))
        self.say("rosa", 1, "bors r+")
        self.told(1, "Landed on main")
        want("the refusals", self.events("refused"), [])
        want("how often the host was started", self.starts, 2)


class OlderFile(Attack):
    """An older file of the bot is put back. What was done since is done again: an approval that was taken back stays so."""

    def happen(self):
        wait = self.stage_what_waits()
        self.stop()
        records = self.repository / "gate/records"
        for name in ("bot.db", "bot.db-wal"):
            if (records / name).exists():
                shutil.copy(records / name, self.room / name)
        self.say("rosa", 1, "bors r-")
        self.until("it is taken back", lambda: "approved  -" in self.report("change-1"))
        self.stop()
        for name in ("bot.db", "bot.db-wal"):
            (records / name).unlink(missing_ok=True)
            if (self.room / name).exists():
                shutil.copy(self.room / name, records / name)
        wait.unlink()
        self.keep_running()
        self.until("the host runs", lambda: self.report("process").strip() == str(self.process.pid))
        self.say("milo", 1, "bors ping")
        self.until("the comment was answered", lambda: "gate: pong" in self.report("log-1"))
        time.sleep(WATCHED)
        want("where main is", self.git("rev-parse", "main"), self.first)
        must("whether the host says so", self.complained("lacks answers that the journal has"))

    def is_quiet(self):
        return True


class OfAnotherHistory(Attack):
    """A file of the bot, or a journal, that doesn't belong to the other one: the host doesn't start."""

    def happen(self):
        self.push("otto", 1, {"parts/good": "test 1 -gt 0\n"})
        self.until("the change is open", lambda: self.report("change-1"))
        self.stop()
        records = self.repository / "gate/records"
        shutil.copy(records / "journal.db", self.room / "journal.db")
        self.push("otto", 2, {"parts/good": "test 2 -gt 0\n"})
        self.until("the change is open", lambda: self.report("change-2"))
        self.stop()
        shutil.copy(records / "journal.db", self.room / "later.db")
        shutil.copy(self.room / "journal.db", records / "journal.db")
        self.fails("the journal is older")
        shutil.copy(self.room / "later.db", records / "journal.db")
        with closing(sqlite3.connect(records / "journal.db")) as journal:
            journal.execute("UPDATE deliveries SET answer = '[]' WHERE number = (SELECT max(number) FROM deliveries)")
            journal.commit()
        self.fails("aren't of one history")
        shutil.copy(self.room / "later.db", records / "journal.db")

    def fails(self, words):
        self.say("milo", 1, "bors ping")
        self.said.pop()
        self.start_fails(words)
        for note in (self.repository / "gate/spool").iterdir():
            shutil.rmtree(note) if note.is_dir() else note.unlink()


class TryReachesOut(Attack):
    """A member has a change tried whose check moves branches, sets names, and says of another check that it has succeeded."""

    # Also without a sandbox git finds no way from the clone to the guarded repository.
    sandbox = "off"

    def happen(self):
        wait = self.room / "wait"
        wait.touch()
        self.push("otto", 1, {"parts/bad": f"while test -e {wait}; do sleep 0.1; done\ntest 1 -gt 2\n"})
        self.push("otto", 2, {"parts/out": self.reach_out()})
        self.until("the changes are open", lambda: self.report("change-1") and self.report("change-2"))
        self.say("rosa", 1, "bors r+")
        self.until("it is tested", lambda: "staging staged" in self.report("queue"))
        self.say("milo", 2, "bors try")
        self.until("the try has reached out", lambda: (self.room / "reached").exists())
        time.sleep(0.5)
        wait.unlink()
        self.told(1, "(Failed)")
        want("where main is", self.git("rev-parse", "main"), self.first)
        want("the tags", self.must_git("tag", "--list"), "")
        want("a setting", self.git("config", "filter.evil.smudge"), None)
        want("a branch", self.git("rev-parse", "--verify", "--quiet", "change/9"), None)

    def reach_out(self):
        return f"""\
git update-ref refs/heads/main HEAD
git branch change/9
git tag out
git config filter.evil.smudge evil
git config --file "$(git rev-parse --git-common-dir)/config" filter.evil.smudge evil
git push -q origin HEAD:main
for it in ../*.verdict ../../*.verdict ../staging*; do
    echo '{{"state":"success","said":"forged"}}' >"${{it%.verdict}}.verdict"
done
touch {self.room / 'reached'}
while test -e {self.room / 'wait'}; do sleep 0.1; done
"""


class OutOfTheSandbox(Attack):
    """A check in the sandbox reads nothing of the owner's, writes nothing outside, sees no other process and no network."""

    sandbox = "auto"
    of_owner = {"MY_SECRET": "secret"}

    def set_sandbox(self):
        if "sandbox_writes =" in (self.repository / "gate/settings").read_text(encoding="utf-8"):
            self.set("sandbox_writes =", f"sandbox_writes = {self.room / 'given'}")

    def make_check(self, name):
        """A program that stands where the check may read."""
        path = self.room / "given" / name
        path.write_text(f"#!/bin/sh\n{self.check_body(name)}\n", encoding="utf-8")
        path.chmod(0o755)
        return path

    def make_repository(self):
        (self.room / "given").mkdir()
        super().make_repository()

    def happen(self):
        out = self.room / "given/found"
        self.push("otto", 1, {"parts/out": self.look_around(out)})
        self.until("the change is open", lambda: self.report("change-1"))
        self.say("milo", 1, "bors try")
        self.told(1, "The try has passed")
        found = out.read_text(encoding="utf-8").split("\n")
        want("what the check could do", [it for it in found if it], ["ended"])
        must("whether the start says so", self.complained("checks run in a sandbox, without network"))
        left = [it for it in Path("/proc").iterdir() if it.name.isdigit() and self.is_left(it)]
        want("what it left behind", left, [])

    def is_left(self, process):
        try:
            return b"4242.4242" in (process / "cmdline").read_bytes()
        except OSError:
            return False

    def look_around(self, out):
        records, home = self.repository / "gate/records", Path.home()
        return f"""\
out={out}
say() {{ echo "$1" >>$out; }}
ls {records}/journal.db && say 'saw the journal'
ls {self.repository}/gate/settings && say 'saw the settings'
touch {self.repository}/refs/heads/main && say 'wrote to the repository'
touch {records}/mirror/objects/x && say 'wrote to the mirror'
git update-ref refs/heads/main HEAD && git push {self.repository} HEAD:main && say 'pushed'
ls {home}/.ssh {home}/.bashrc && say 'saw the home folder'
test "$(ls /proc | grep -c '^[0-9]')" -gt 12 && say 'saw other processes'
cat /etc/shadow && say 'saw the passwords'
env | grep secret && say 'saw a secret of the environment'
old=$(cat /proc/sys/vm/swappiness) && echo "$old" >/proc/sys/vm/swappiness && say 'could set up the kernel'
test "$(ls /sys/class/net 2>/dev/null | grep -vc '^lo$')" -gt 0 && say 'saw a network'
git log -1 >/dev/null && git status >/dev/null || say 'git does not work'
echo x >file && test -s file && echo x >/tmp/file && test -w "$HOME" || say 'cannot write where it should'
setsid sleep 4242.4242 &
say ended
"""


class JumpingClock(Attack):
    """The clock is ten days ahead for a moment, while a batch is tested. It isn't timed out by that."""

    def jump(self):
        return self.room / "jump"

    def make_repository(self):
        super().make_repository()
        self.set("tick_seconds = 0.4", "tick_seconds = 5")

    def host_command(self):
        return [sys.executable, TESTS / "jumping_host.py", HOST.parent, self.jump(), "run", self.repository]

    def happen(self):
        wait = self.stage_what_waits()
        begin = time.time()
        self.jump().touch()
        self.until("it is told", lambda: self.complained("days ahead") or self.last_tick() > begin + 86400)
        self.jump().unlink()
        time.sleep(WATCHED)
        wait.unlink()
        self.told(1, "Landed on main")

    def last_tick(self):
        return max(it["now"] for it in self.events("tick"))


class OtherNameOfTrying(Attack):
    """The branch trying is made another name of the main one, so a try would move that."""

    def happen(self):
        self.push("otto", 1, {"parts/bad": "test 1 -gt 2\n"})
        self.until("the change is open", lambda: self.report("change-1"))
        self.must_git("symbolic-ref", "refs/heads/trying", "refs/heads/main")
        self.say("milo", 1, "bors try")
        self.until("main moves, or the log says why not", lambda: (
            self.git("rev-parse", "main") != self.first or "refs/heads/trying is another name of" in self.report("log-1")
        ))
        want("where main is", self.git("rev-parse", "main"), self.first)
        self.must_git("symbolic-ref", "--delete", "refs/heads/trying")
        self.told(1, "TryFailed")


class OtherRepository(Attack):
    """A file has git read the branches, settings and hooks of another repository. It is told at once, and no host starts with it."""

    def happen(self):
        self.keep_running()
        self.until("the host runs", lambda: self.report("process"))
        other = self.room / "other.git"
        self.must_git("clone", "--quiet", "--bare", str(self.repository), str(other), at=self.room)
        path = self.repository / "commondir"
        path.write_text(f"{other}\n", encoding="utf-8")
        self.until("the queue says so", lambda: "commondir has git read" in self.report("queue"))
        want("how the doctor ends", self.doctor()[0], 1)
        self.stop()
        self.start_fails("commondir")
        path.unlink()


class LostMirror(Attack):
    """The records were put back, or are of an older host: the mirror is empty while a batch is tested. No change is blamed for that."""

    def happen(self):
        wait = self.stage_what_waits()
        for is_there in (True, False):
            self.stop()
            shutil.rmtree(self.repository / "gate/records/mirror")
            if not is_there:
                # Nor has the guarded repository the commit, so it is made again.
                self.must_git("update-ref", "-d", "refs/heads/staging")
                self.must_git("-c", "gc.reflogExpire=now", "gc", "--quiet", "--prune=now")
            self.keep_running()
            self.until("it is tested again", lambda: any((self.repository / "gate/records/clones").glob("*/clone/parts/good")))
        wait.unlink()
        self.told(1, "Landed on main")
        want("how often it was staged", len(self.events("staged")), 1)


class LockInMirror(Attack):
    """A git of the host's has died, and left locks in the mirror. The next host takes them away."""

    def happen(self):
        self.keep_running()
        self.until("there is a base", lambda: f"base {self.first}" in self.report("queue"))
        self.stop()
        mirror = self.repository / "gate/records/mirror"
        for name in ("refs/gate/main.lock", "refs/gate/change/1.lock", "packed-refs.lock"):
            (mirror / name).parent.mkdir(parents=True, exist_ok=True)
            (mirror / name).touch()
        self.push("otto", 1, {"parts/good": "test 1 -gt 0\n"})
        self.until("the change is open", lambda: self.report("change-1"))
        self.say("rosa", 1, "bors r+")
        self.told(1, "Landed on main")


class HiddenStray(Attack):
    """Somebody who may pushes a commit to the main branch and takes it back. That somebody else brings it there again is told."""

    leaves = {"past the hook"}

    def happen(self):
        self.keep_running()
        self.until("there is a base", lambda: f"base {self.first}" in self.report("queue"))
        commit = self.commit(["--detach", self.first], {"past": "1\n"}, "past")
        for target in (commit, self.first):
            self.must_git("push", "--quiet", "--force", "origin", f"{target}:main", at=self.clone, person="ines")
            self.until("the host has seen it", lambda: f"base {target}" in self.report("queue"))
            time.sleep(WATCHED)
        must(f"whether none is told, by {self.report('queue')}", "trouble" not in self.report("queue"))
        self.must_git("update-ref", "refs/heads/main", commit)
        self.until("the queue says so", lambda: f"trouble: the main branch was moved from {self.first} to {commit}" in self.report("queue"))


class ManyBranches(Attack):
    """A push of many branches. A comment on another change is answered meanwhile."""

    def happen(self):
        self.push("otto", 1, {"parts/good": "test 1 -gt 0\n"})
        self.until("the change is open", lambda: self.report("change-1"))
        many = [f"HEAD:refs/heads/change/{number}" for number in range(1000, 2200)]
        self.must_git("push", "--quiet", "origin", *many, at=self.clone, person="otto")
        self.say("milo", 1, "bors ping")
        self.until("all of them are open", lambda: self.report("change-2199"))
        self.told(1, "gate: pong")
        events = [it["event"] for it, _ in self.recorded()]
        later = events[events.index("comment"):].count("opened")
        must(f"whether the comment came before others, and not before {later}", later > 100)


class CannotBeCheckedOut(Attack):
    """A commit that git can't check out is tried a few times, and then fails its check with the reason."""

    def make_repository(self):
        super().make_repository()
        # A host that doesn't try again has no such setting.
        if "retry_seconds = 5" in (self.repository / "gate/settings").read_text(encoding="utf-8"):
            self.set("retry_seconds = 5", "retry_seconds = 0.1")

    def happen(self):
        blob = self.write("x", "hash-object", "-w", "--stdin")
        # The files of before stay: a change without settings doesn't come to a check.
        before = self.must_git("ls-tree", self.first).strip()
        tree = self.write(f"{before}\n100644 blob {blob}\t{'x' * 300}\n", "mktree")
        head = self.write("", "commit-tree", tree, "-p", self.first, "-m", "long")
        self.must_git("push", "--quiet", str(self.repository), f"{head}:refs/heads/change/1", person="otto")
        self.heads[1] = head
        self.until("the change is open", lambda: self.report("change-1"))
        begin = time.monotonic()
        self.say("rosa", 1, "bors r+")
        self.told(1, "the commit can't be checked out: ", "(Failed)")
        must("whether that was soon", time.monotonic() - begin < 120)


class KilledCheck(Attack):
    """A check is killed, as when memory is out. No change is blamed for that, and the check is run again."""

    parallel = "no"

    def make_repository(self):
        super().make_repository()
        self.set("retry_seconds = 5", "retry_seconds = 0.2")
        self.set("parallel = no", f"parallel = {self.parallel}")

    def happen(self):
        mark = self.room / "mark"
        self.push("otto", 1, {"parts/killed": f"test -e {mark} || kill -9 $PPID; test 1 -gt 0\n"})
        self.until("the change is open", lambda: self.report("change-1"))
        self.say("rosa", 1, "bors r+")
        self.told(1, "it was killed after")
        self.until("the queue says so", lambda: "trouble: " in self.report("queue") and "it was killed after" in self.report("queue"))
        mark.touch()
        self.told(1, "Landed on main")
        want("how often that was told", self.report("log-1").count("it was killed after"), 1)
        self.until("the queue says no more so", lambda: "trouble: " not in self.report("queue"))


class KilledBesideOthers(KilledCheck):
    """The same with checks that run side by side."""

    parallel = "yes"


class LastNumber(Attack):
    """A change with the greatest number doesn't end the numbers."""

    def happen(self):
        self.push("otto", 4294967295, {"parts/last": "test 1 -gt 0\n"})
        self.push("otto", 1, {"parts/first-one": "test 1 -gt 0\n"})
        self.until("the queue has both", lambda: "open: changes 1, 4294967295; the next free number is 2\n" in self.report("queue"))


def without_sandbox():
    """The attacks that can't be played here."""
    return [OutOfTheSandbox] if why_not() else []


ATTACKS = [
    ReplacedHead, ReplacedFile, ForgedObject, Graft, OtherName, NoHook, Stray, NamedCommand, BranchInTheWay, OwnStaging, OtherNames,
    StaleLock, StalledGit, OlderFile, OfAnotherHistory, TryReachesOut, OutOfTheSandbox, OtherNameOfTrying, OtherRepository, LostMirror,
    LockInMirror, HiddenStray, ManyBranches, JumpingClock, CannotBeCheckedOut, KilledCheck, KilledBesideOthers, LastNumber,
]
