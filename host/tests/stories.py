"""Stories of hosts that guard real git repositories, with people, pushes and deaths. `.ci/test_gate_host` plays them, and says what is due.

A bare repository has ten changes by three people. Two of them conflict, and one breaks the build. A reviewer approves all.
"""
import json
import os
import pwd
import shlex
import shutil
import subprocess
import sys
import time
from pathlib import Path
from unittest import mock

TOP = Path(__file__).resolve().parent.parent.parent
sys.path.insert(0, str(TOP / "host"))

from gate_host import spool  # noqa: E402
from gate_host.places import Places  # noqa: E402
from gate_host.sandbox import why_not  # noqa: E402

# Another host than the one of this tree may be tested, as an older one.
HOST = Path(os.environ.get("GATE_HOST", TOP / "host/gate-host"))
TESTS = TOP / "host/tests"
GIT = shutil.which("git")
# What a story may take before it counts as one that never ends, and what a command may take.
STORY_SECONDS = int(os.environ.get("GATE_STORY_SECONDS", "300"))
SECONDS = 60

# No settings of git but these. The people of the stories are told by the variable of gitolite.
ENVIRONMENT = {
    **os.environ, "GIT_CONFIG_GLOBAL": "/dev/null", "GIT_CONFIG_NOSYSTEM": "1", "PYTHONDONTWRITEBYTECODE": "1",
    "GIT_AUTHOR_NAME": "ines", "GIT_AUTHOR_EMAIL": "ines@localhost", "GIT_COMMITTER_NAME": "ines", "GIT_COMMITTER_EMAIL": "ines@localhost",
}
PEOPLE = ("ines", "otto", "vera")
CHECKS = ("build", "lint")
# What the main branch has at first. The check runs all parts.
FILES = {
    "bors.toml": 'status = ["build", "lint"]\n',
    "check": 'for part in parts/*; do sh "$part" || exit 1; done\n',
    "parts/first": "test 1 -gt 0\n",
}
BREAKS, PAIR = 5, (3, 8)


class Failed(Exception):
    """What is wrong with a case."""


def want(what, found, due):
    if found != due:
        raise Failed(f"{what}: {found!r}, and should be {due!r}")


def must(what, is_so):
    want(what, bool(is_so), True)


def run(*command, **more):
    given = {"env": ENVIRONMENT, "capture_output": True, "encoding": "utf-8", "timeout": SECONDS, **more}
    return subprocess.run([str(it) for it in command], **given)


def files_of(change):
    """What a change adds. Two of them add the same file, and one has a part that fails."""
    if change in PAIR:
        return {"parts/clash": f"test {change} -gt 0\n"}
    return {f"parts/number-{change}": "echo broken; test 1 -gt 2\n" if change == BREAKS else f"test {change} -gt 0\n"}


class Story:
    """A bare repository with a host, a clone, and people."""

    changes = range(1, 11)
    # Whose pushes to the main branch past the queue are no findings of an audit.
    may_push = ("ines",)
    # The checks of the stories write down outside of their clones what they find.
    sandbox = "off"
    # What the environment of the host has besides.
    of_owner = {}

    def __init__(self, program, room):
        self.program, self.room = str(program), Path(room)
        self.repository, self.clone, self.checkout = (self.room / name for name in ("project.git", "clone", "checkout"))
        self.answers, self.checked, self.beside, self.errors = (self.room / it for it in ("answers", "checked", "beside", "errors"))
        self.marks, self.tools = self.room / "marks", self.room / "tools"
        self.process, self.starts, self.heads, self.said = None, 0, {}, []
        for folder in (self.marks, self.tools):
            folder.mkdir()
        for file in (self.answers, self.checked, self.beside, self.errors):
            file.touch()
        self.make_repository()

    # What people do

    def git(self, *arguments, at=None, person=None):
        """What git writes, or none if it fails."""
        environment = {**ENVIRONMENT, **({"GL_USER": person} if person else {})}
        ran = run(GIT, "-C", at or self.repository, *arguments, env=environment)
        return ran.stdout.strip() if ran.returncode == 0 else None

    def must_git(self, *arguments, **more):
        written = self.git(*arguments, **more)
        must(f"whether git {' '.join(arguments)} succeeds", written is not None)
        return written

    def host(self, *arguments, person=None, **more):
        """Runs a command of the host to its end."""
        environment = {**ENVIRONMENT, **({"GL_USER": person} if person else {})}
        return run(sys.executable, HOST, *arguments, env=environment, **more)

    def must_host(self, *arguments, **more):
        ran = self.host(*arguments, **more)
        want(f"the status of gate-host {' '.join(arguments)}, which says {ran.stderr.strip()}", ran.returncode, 0)
        return ran.stdout

    def show(self, *arguments):
        return self.must_host(*arguments, "--repository", str(self.repository))

    def say(self, person, change, text):
        self.said.append([change, person, "\n".join(line for line in text.split("\n") if line.startswith("bors"))])
        self.must_host("say", str(change), text, "--repository", str(self.repository), person=person)

    def commit(self, beginning, files, message):
        """Commits files in the clone, and gives the commit."""
        self.must_git("checkout", "--quiet", *beginning, at=self.clone)
        for name, text in files.items():
            path = self.clone / name
            path.parent.mkdir(exist_ok=True)
            path.write_text(text, encoding="utf-8")
        self.must_git("add", ".", at=self.clone)
        self.must_git("commit", "--quiet", "--allow-empty", "-m", message, at=self.clone)
        return self.must_git("rev-parse", "HEAD", at=self.clone)

    def push(self, person, change, files, beginning=None):
        """Pushes a change, whose branch begins at the first commit."""
        head = self.commit(beginning or ["--detach", self.first], files, f"change {change}")
        self.must_git("push", "--quiet", "--force", "origin", f"HEAD:refs/heads/change/{change}", at=self.clone, person=person)
        self.heads[change] = head
        return head

    # The repository and the host

    def make_repository(self):
        self.must_git("init", "--quiet", "--bare", "--initial-branch=main", str(self.repository), at=self.room)
        self.must_git("config", "core.logAllRefUpdates", "true")
        self.must_git("clone", "--quiet", str(self.repository), str(self.clone), at=self.room)
        self.must_git("clone", "--quiet", "--shared", str(self.repository), str(self.checkout), at=self.room)
        self.first = self.commit(["-B", "main"], FILES, "first")
        self.must_git("push", "--quiet", "origin", "main", at=self.clone)
        checks = [f"--check={name}={shlex.quote(str(self.make_check(name)))}" for name in CHECKS]
        people = ["--reviewer", "rosa", "--member", "milo", "--may-push", "ines"]
        self.must_host("init", str(self.repository), "--program", str(self.make_bot()), *people, *checks)
        self.set("tick_seconds = 10", "tick_seconds = 0.4")
        self.set("look_seconds = 1", "look_seconds = 0.2")
        self.set_sandbox()
        want("where main is", self.git("rev-parse", "main"), self.first)
        self.make_tools()

    def set_sandbox(self):
        """A host that knows no sandbox has no such settings."""
        if "sandbox = auto" in (self.repository / "gate/settings").read_text(encoding="utf-8"):
            self.set("sandbox = auto", f"sandbox = {self.sandbox}")
            self.set("sandbox_writes =", f"sandbox_writes = {self.room}")

    def set(self, before, after):
        path = self.repository / "gate/settings"
        text = path.read_text(encoding="utf-8")
        must(f"whether the settings have {before}", before in text)
        path.write_text(text.replace(before, after), encoding="utf-8")

    def make_tool(self, name, text):
        path = self.tools / name
        path.write_text("#!/bin/sh\n" + text, encoding="utf-8")
        path.chmod(0o755)
        return path

    def make_check(self, name):
        """A check that writes down on which files it ran, and how it ended. It counts the files as they lie there."""
        git, checked = shlex.quote(GIT), shlex.quote(str(self.checked))
        (self.room / "outside").mkdir(exist_ok=True)
        return self.make_tool(f"check-{name}", f"""\
GIT_INDEX_FILE={shlex.quote(str(self.room / 'outside'))}/index.$$
export GIT_INDEX_FILE
commit=$({git} rev-parse HEAD) && {git} add --all && tree=$({git} write-tree) || exit 9
{self.check_body(name)}
ended=$?
echo "$commit $tree {name} $ended" >>{checked}
exit "$ended"
""")

    def check_body(self, name):
        return "sh check" if name == "build" else "test -f bors.toml"

    def make_bot(self):
        """What the host takes for the bot: it writes down what goes in and out."""
        command = [sys.executable, TESTS / "recorder.py", self.answers, self.marks_of_bot(), self.push_of_bot(), self.program]
        return self.make_tool("gate", f"exec {shlex.join(str(it) for it in command)} \"$@\"\n")

    def marks_of_bot(self):
        return "-"

    def push_of_bot(self):
        """What runs before the host has the first order to stage."""
        return "-"

    def make_push(self):
        """A tool by which somebody who may pushes to the main branch; and one that does so the first time."""
        git, clone = shlex.quote(GIT), shlex.quote(str(self.room / "other"))
        self.must_git("clone", "--quiet", str(self.repository), str(self.room / "other"), at=self.room)
        push = shlex.quote(str(self.make_tool("push", f"""\
unset GIT_DIR GIT_WORK_TREE GIT_INDEX_FILE
export GL_USER=ines GIT_AUTHOR_NAME=ines GIT_AUTHOR_EMAIL=ines@localhost GIT_COMMITTER_NAME=ines GIT_COMMITTER_EMAIL=ines@localhost
cd {clone} && {git} fetch --quiet && {git} checkout --quiet --detach origin/main || exit
echo >>beside && {git} add beside && {git} commit --quiet -m beside && {git} push --quiet origin HEAD:main || exit
{git} rev-parse HEAD >>{shlex.quote(str(self.beside))}
""")))
        self.make_tool("push-once", f"mkdir {shlex.quote(str(self.marks))}/pushed-ordered 2>/dev/null || exit 0\nexec {push}\n")
        return push

    def make_tools(self):
        """Puts into `tools` what the host is to take for git."""

    def host_command(self):
        return [sys.executable, HOST, "run", self.repository]

    def keep_running(self):
        """Starts the host, unless it runs."""
        if self.process and self.process.poll() is None:
            return
        self.starts += 1
        environment = {**ENVIRONMENT, "PATH": f"{self.tools}:{ENVIRONMENT['PATH']}", **self.of_owner}
        with open(self.errors, "ab") as errors:
            command = [str(it) for it in self.host_command()]
            self.process = subprocess.Popen(command, env=environment, stdin=subprocess.DEVNULL, stdout=errors, stderr=errors)

    def until(self, what, is_so):
        """Waits until something is so, and starts the host again whenever it has ended."""
        late = time.monotonic() + STORY_SECONDS
        while not is_so():
            if time.monotonic() > late:
                raise Failed(f"it doesn't come to this: {what}; the host was started {self.starts} times")
            self.keep_running()
            time.sleep(0.05)

    def stop(self):
        """Ends the host by the signal that is meant for that."""
        self.keep_running()
        process = self.repository / "gate/reports/process"
        self.until("the host runs", lambda: process.exists() and process.read_text(encoding="utf-8").strip() == str(self.process.pid))
        self.process.terminate()
        want("how the host ends", self.process.wait(SECONDS), 0)

    def play(self):
        """Lets all happen, up to a host that has ended."""
        try:
            self.happen()
            self.until("the queue is empty", self.is_quiet)
            self.stop()
        finally:
            if self.process and self.process.poll() is None:
                self.process.kill()
                self.process.wait()

    def happen(self):
        """Ten changes come, and are approved. Some come before the host runs, and some after."""
        for change in self.changes:
            if change == 4:
                self.keep_running()
            self.push(PEOPLE[change % 3], change, files_of(change))
        for change in self.changes:
            self.until(f"there is a report of change {change}", lambda: self.report(f"change-{change}"))
            self.say("rosa", change, "bors r+")
        self.until("each change has landed or was refused", self.is_settled)

    def report(self, name):
        path = self.repository / "gate/reports" / name
        return path.read_text(encoding="utf-8") if path.exists() else ""

    def landed(self):
        return {change for change in self.heads if "state     landed\n" in self.report(f"change-{change}")}

    def refused(self):
        """The changes whose approval has ended, as they were told."""
        return {change for change in self.heads if "The approval or the try has ended" in self.report(f"log-{change}")}

    def causes(self):
        """Why changes aren't on the main branch that were approved once: the reason and the status that its notice names, by the change."""
        loser = max(PAIR) if min(PAIR) in self.landed() else min(PAIR)
        return {BREAKS: ("Failed", "build"), loser: ("Conflict", "")}

    def head_that_landed(self, change):
        return self.heads[change]

    def is_settled(self):
        return self.landed() | self.refused() == set(self.changes)

    def is_quiet(self):
        base, _, heading, rest = self.report("queue").split("\n", 3) if self.report("queue") else ("", "", "", "x")
        is_empty = rest.startswith("\n") and not any((self.repository / "gate/spool").iterdir())
        return is_empty and base == f"base {self.git('rev-parse', 'main')}"

    def recorded(self):
        """Each delivery with its answer, once."""
        both = [json.loads(line) for line in self.answers.read_text(encoding="utf-8").splitlines()]
        return list({it["delivery"]["id"]: (it["delivery"], it["answer"]) for it in both}.values())


class Calm(Story):
    """Nothing else happens. The checks run in the sandbox."""

    sandbox = "off" if why_not() else "required"


class Killed(Story):
    """The host dies before and after each kind of command of git, the bot or the host at each kind of answer; and somebody pushes."""

    def marks_of_bot(self):
        return self.marks

    def push_of_bot(self):
        return self.tools / "push-once"

    def make_tools(self):
        marks, git, push = shlex.quote(str(self.marks)), shlex.quote(GIT), self.make_push()
        self.make_tool("git", f"""\
is_first() {{ mkdir {marks}/"$1" 2>/dev/null; }}
name=$1
case "$*" in
"push "*) name="push-${{*##*:refs/heads/}}" ;;
*"--is-ancestor"*) name=look-at-main ;;
esac
is_first "git-before-$name" && kill -9 "$PPID" && exit
case $name in
push-*) is_first "git-meanwhile-$name" && kill -9 "$PPID" && sleep 0.4 ;;
esac
[ "$name" = push-main ] && [ -d {marks}/git-after-$name ] && is_first pushed-before-main && {push}
{git} "$@"
ended=$?
is_first "git-after-$name" && kill -9 "$PPID"
exit "$ended"
""")


class KilledWithin(Story):
    """The host dies before and after each of its own steps, and while a check runs."""

    def check_body(self, name):
        """Once, when three checks have ended, the next one kills the host, by the number that it has left."""
        checked, marks, process = (shlex.quote(str(it)) for it in (self.checked, self.marks, self.repository / "gate/reports/process"))
        return f"""\
if [ "$(wc -l <{checked})" -ge 3 ] && mkdir {marks}/check-runs 2>/dev/null; then
    kill -9 "$(cat {process})"
    sleep 60
fi
{super().check_body(name)}"""

    def host_command(self):
        return [sys.executable, TESTS / "dying_host.py", self.marks, "run", self.repository]


class Beside(Story):
    """Somebody pushes to the main branch from beside."""

    def push_of_bot(self):
        return self.tools / "push-once"

    def make_tools(self):
        git, marks, push = shlex.quote(GIT), shlex.quote(str(self.marks)), self.make_push()
        self.make_tool("git", f"""\
case "$*" in
"merge-tree "*) mkdir {marks}/pushed-merge 2>/dev/null && {push} ;;
"checkout "*) mkdir {marks}/pushed-checkout 2>/dev/null && {push} ;;
"push "*:refs/heads/staging) mkdir {marks}/pushed-staged 2>/dev/null && {push} ;;
"push "*:refs/heads/main) mkdir {marks}/pushed-before-main 2>/dev/null && {push} ;;
esac
{git} "$@"
ended=$?
case "$*" in
"push "*:refs/heads/main) [ "$ended" = 0 ] && mkdir {marks}/pushed-after-main 2>/dev/null && {push} && kill -9 "$PPID" ;;
esac
exit "$ended"
""")


class Daily(Story):
    """One thing after the other, each with what people are told of it."""

    changes = ()

    def causes(self):
        return {24: ("Conflict", ""), 25: ("Failed", "build")}

    def head_that_landed(self, change):
        """One was pushed once more when it had landed."""
        return self.landed_head if change == 22 else self.heads[change]

    def make_tools(self):
        """What lies under `at-look` runs once, right before the host looks at the branches."""
        script, git = shlex.quote(str(self.at_look())), shlex.quote(GIT)
        self.make_tool("git", f"""\
case "$*" in
"for-each-ref "*) mv {script} {script}.done 2>/dev/null && sh {script}.done ;;
esac
exec {git} "$@"
""")

    def at_look(self):
        return self.room / "at-look"

    def told(self, change, *words):
        """Waits until the log of a change has these words."""
        self.until(f"the log of change {change} says {words}", lambda: all(it in self.report(f"log-{change}") for it in words))

    def happen(self):
        self.keep_running()
        for step in (
            self.a_second_host_is_refused, self.pushes_past_the_queue_are_refused, self.a_try_passes, self.who_may_not_is_told,
            self.what_was_not_seen_is_not_approved, self.a_push_ends_an_approval, self.a_branch_goes_and_comes_back,
            self.what_has_nothing_in_common_conflicts, self.a_check_has_a_limit, self.bad_settings_are_told, self.roles_are_taken_back,
            self.others_may_not_write_roles, self.a_lost_file_is_filled_again, self.a_push_comes_right_before_a_look,
            self.strange_notes_end_nothing, self.a_comment_waits_for_its_change,
        ):
            step()

    def a_second_host_is_refused(self):
        self.until("the host runs", lambda: self.report("process"))
        ran = self.host("run", str(self.repository))
        want("a second host", (ran.returncode, ran.stderr.splitlines()[-1]), (1, f"gate-host: another host runs on {self.repository}"))

    def pushes_past_the_queue_are_refused(self):
        self.commit(["--detach", self.first], {"past": "1\n"}, "past")
        due = {"main": "by the queue alone", "staging": "by the host alone", "change/x": "is no change", "change/0": "is no change"}
        for branch, why in due.items():
            environment = {**ENVIRONMENT, "GL_USER": "otto"}
            ran = run(GIT, "-C", self.clone, "push", "origin", f"HEAD:refs/heads/{branch}", env=environment)
            must(f"whether a push to {branch} is refused by {ran.stderr}", ran.returncode != 0 and why in ran.stderr)
        want("where main is", self.git("rev-parse", "main"), self.first)

    def a_try_passes(self):
        self.push("otto", 21, {"parts/a": "test 1 -gt 0\n"})
        self.say("milo", 21, "bors try")
        self.told(21, "The try has passed")
        must("whether it has landed", 21 not in self.landed())

    def who_may_not_is_told(self):
        self.say("eve", 21, "I think\nbors r+")
        self.told(21, "eve wrote:", "> I think", "gate: denied, that needs more rights than you have (NotPermitted, ReviewerOrDelegate)")

    def what_was_not_seen_is_not_approved(self):
        ran = self.host("say", "21", "bors r+", "--repository", str(self.repository), "--head", "0" * 40, person="rosa")
        must(f"whether it is refused by {ran.stderr}", ran.returncode == 1 and "look again" in ran.stderr)
        self.stop()
        self.said_in_vain("rosa", 21)
        self.push("otto", 21, {"parts/a": "test 2 -gt 0\n"})
        self.told(21, "Not taken: it was about")
        ran = self.host("say", "99", "bors r+", "--repository", str(self.repository), person="rosa")
        want("a comment on no change", (ran.returncode, ran.stderr), (1, "gate-host: there is no branch change/99\n"))

    def said_in_vain(self, person, change):
        self.must_host("say", str(change), "bors r+", "--repository", str(self.repository), person=person)

    def a_push_ends_an_approval(self):
        wait = self.room / "wait"
        wait.touch()
        self.push("otto", 22, {"parts/b": f"while test -e {wait}; do sleep 0.1; done\n"})
        self.say("rosa", 22, "bors r+")
        self.until("it is staged", lambda: "staging staged" in self.report("queue"))
        self.explained(22, "It is open, and approved by rosa [", "), which is being tested.\n", "\n  the check build is open\n")
        head = self.landed_head = self.push("vera", 22, {"parts/b": "test 1 -gt 0\n"})
        self.told(22, "(Pushed)")
        self.explained(22, "\nbors r+ would approve it now if rosa said so.\n", f"since it was pushed (Pushed), to {head[:7]}, by vera [")
        self.say("rosa", 22, "bors r+")
        # The check of the commit before is stopped, although it waits.
        self.told(22, "Landed on main")
        self.explained(22, "\nIt has landed as ", "\nIt was approved by rosa [")
        wait.unlink()
        self.push("vera", 22, {"parts/b": "test 3 -gt 0\n"})
        self.told(22, "Push it as another change")

    def explained(self, change, *words):
        """While the host runs, an explanation of a change has these words."""
        said = self.show("explain", str(change))
        must(f"whether {words} are in {said}", all(it in said for it in words))

    def a_branch_goes_and_comes_back(self):
        self.push("otto", 23, {"parts/c": "test 1 -gt 0\n"})
        self.until("it is open", lambda: "author    otto" in self.report("change-23"))
        self.must_git("push", "--quiet", "origin", ":refs/heads/change/23", at=self.clone, person="otto")
        self.until("it is closed", lambda: "state     closed" in self.report("change-23"))
        self.push("vera", 23, {"parts/c": "test 2 -gt 0\n"})
        self.until("it is open again", lambda: "author    vera" in self.report("change-23"))
        must("whether it is open", "state     open" in self.report("change-23"))

    def what_has_nothing_in_common_conflicts(self):
        self.push("otto", 24, {"parts/d": "test 1 -gt 0\n"}, ["--orphan", "alone"])
        self.say("rosa", 24, "bors r+")
        self.told(24, "no commit in common", "(Conflict)")

    def a_check_has_a_limit(self):
        self.set("check_seconds = 3600", "check_seconds = 1")
        left = self.room / "left"
        self.push("otto", 25, {"parts/e": f"sleep 600 & echo $! >{left}; echo waits; wait\n"})
        self.say("rosa", 25, "bors r+")
        self.told(25, "it took more than 1 seconds", "(Failed)")
        must("whether the output is shown", "\nwaits\n" in self.show("log", "25"))
        gone = Path(f"/proc/{left.read_text(encoding='utf-8').strip()}/stat")
        self.until("what the check left behind is gone", lambda: not gone.exists() or ") Z " in gone.read_text(encoding="utf-8"))
        self.set("check_seconds = 1", "check_seconds = 3600")

    def bad_settings_are_told(self):
        self.push_past("status = [\n")
        self.until("the queue says so", lambda: "the settings of main aren't taken: " in self.report("queue"))
        self.push_past(FILES["bors.toml"])
        self.until("the queue says no more so", lambda: "aren't taken" not in self.report("queue"))

    def push_past(self, settings):
        """Somebody who may pushes other settings to the main branch."""
        self.must_git("fetch", "--quiet", at=self.clone)
        commit = self.commit(["--detach", "origin/main"], {"bors.toml": settings}, "settings")
        self.must_git("push", "--quiet", "origin", "HEAD:main", at=self.clone, person="ines")
        with open(self.beside, "a", encoding="utf-8") as beside:
            beside.write(f"{commit}\n")

    def roles_are_taken_back(self):
        roles = self.repository / "gate/roles"
        text = roles.read_text(encoding="utf-8")
        roles.write_text(text.replace("rosa reviewer", "rosa member"), encoding="utf-8")
        self.until("the role is taken", lambda: ("rosa", "member") in self.roles())
        self.say("rosa", 23, "bors r+")
        self.told(23, "gate: denied, that needs more rights")
        roles.write_text(text, encoding="utf-8")

    def roles(self):
        """The roles that the bot was told, one after the other."""
        return [(it["person"], it["role"]) for it, _ in self.recorded() if it["event"] == "role"]

    def others_may_not_write_roles(self):
        roles = self.repository / "gate/roles"
        text = roles.read_text(encoding="utf-8")
        roles.chmod(0o664)
        roles.write_text(text + "eve reviewer\n", encoding="utf-8")
        complaint = "nobody else may write; the roles of before stay"
        self.until("it is complained of", lambda: complaint in self.errors.read_text(encoding="utf-8"))
        roles.write_text(text, encoding="utf-8")
        roles.chmod(0o644)
        want("who has a role", {name for name, _ in self.roles()}, {"rosa", "milo"})

    def a_lost_file_is_filled_again(self):
        self.stop()
        for name in ("bot.db", "bot.db-wal"):
            (self.repository / "gate/records" / name).unlink()
        self.push("otto", 26, {"parts/f": "test 1 -gt 0\n"})
        self.say("rosa", 26, "bors r+")
        self.told(26, "Landed on main")

    def a_push_comes_right_before_a_look(self):
        """Its note comes after the host has looked for notes, and its branch before the host looks at branches."""
        self.heads[27] = self.commit(["--detach", self.first], {"parts/g": "test 1 -gt 0\n"}, "change 27")
        part = self.room / "part"
        push = f"unset GIT_DIR && cd {shlex.quote(str(self.clone))} && GL_USER=vera {GIT} push --quiet origin HEAD:refs/heads/change/27\n"
        part.write_text(push, encoding="utf-8")
        part.rename(self.at_look())
        self.until("it is open", lambda: self.report("change-27"))
        must("whether its author is who pushed", "author    vera\n" in self.report("change-27"))

    def a_comment_waits_for_its_change(self):
        """A branch of which no hook tells is the owner's, and is taken in the second round. The comment comes in the first one."""
        self.stop()
        self.must_git("fetch", "--quiet", at=self.clone)
        self.heads[28] = self.commit(["--detach", "origin/main"], {"parts/h": "test 1 -gt 0\n"}, "change 28")
        self.must_git("fetch", "--quiet", str(self.clone), "HEAD:refs/heads/change/28")
        self.say("rosa", 28, "bors r+")
        self.told(28, "Landed on main")
        self.until("there is its report", lambda: self.report("change-28"))
        must("whether the owner is its author", f"author    {pwd.getpwuid(os.geteuid()).pw_name}\n" in self.report("change-28"))

    def strange_notes_end_nothing(self):
        """What nobody says by `gate-host say`, but somebody may write."""
        starts = self.starts
        for change in (True, 27.0, "27", 10 ** 40, -1, 0, 99, None, [27], {"27": 27}):
            self.leave({"kind": "comment", "person": "eve", "change": change, "text": "bors r+"})
        for heads in (7, [7], [[27]], [[True, "a" * 40]], [[10 ** 40, "a" * 40]], [["27", None]], [[27, "x"]]):
            self.leave({"kind": "push", "person": "eve", "heads": heads})
        for body in ({}, {"kind": 7}, {"kind": "comment", "change": 27}, {"kind": "comment", "change": 27, "text": 7, "head": []}):
            self.leave({"person": "eve", **body})
        for text, taken in (("bors \ud800", "bors ?"), ("bors try " + "\U0001f600" * 5000, None), ("bors ping\x00\x1b[2J\u2028", None)):
            self.said.append([27, "eve", taken or text])
            self.leave({"kind": "comment", "person": "eve", "change": 27, "text": text, "head": self.heads[27]})
        self.say("milo", 27, "bors ping")
        self.told(27, "milo wrote:\n    > bors ping\n", "  gate: pong\n")
        want("how often the host was started", self.starts, starts)

    def leave(self, body):
        """Leaves a note as `gate-host say` does, of whatever it is."""
        # Half of a surrogate pair can stand there as an escape alone.
        is_short = "\ud800" in str(body.get("text"))
        with mock.patch("gate_host.spool.in_bytes", lambda given: json.dumps(given, ensure_ascii=is_short).encode()):
            spool.leave_table(Places(self.repository), body)
