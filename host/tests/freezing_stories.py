"""Stories of a queue that is frozen for a while, and of a main branch that is broken by itself. In both the host dies before and after each
of its own steps that no other story has. `.ci/test_gate_host` plays them, and says what is due."""
import json
import shlex
import signal
import sqlite3
import sys
import time

from stories import FILES, TESTS, Story, must, want

BROKEN = "it ended with status 9 after 0 seconds"
# At these steps the host dies in another story, and needn't here.
FACTS = ("RoleGiven", "MainSeen", "Opened", "Said", "PushTold", "Ticked", "Merged", "Staged", "Queued", "MoverFound")
ANSWERS = ("role", "base", "settings", "opened", "comment", "tick", "tick-stage", "staged")
CALLS = ("remove", "start", "result_of", "put", "page-put")
ELSEWHERE = [f"record-{fact}" for fact in FACTS] + [f"keep_answer-{answer}" for answer in ANSWERS] + ["write_logs"]


class Dying(Story):
    """A story in which the host dies before and after each of its own steps that no other story has, and in which people are told of events
    by a command."""

    changes = ()

    def causes(self):
        return {}

    def make_repository(self):
        super().make_repository()
        # The command of the settings is told as well, and fails the first time.
        told = self.make_tool("told", f"cat >>{shlex.quote(str(self.events))}; mkdir {shlex.quote(str(self.marks))}/pushed-told\n")
        self.set("#on_event = /usr/local/bin/tell-the-team", f"on_event = {told} || exit 0")
        for when in ("before", "after"):
            for name in [*(f"{step}-{when}" for step in ELSEWHERE), *(f"{call}-{when}-call" for call in CALLS)]:
                (self.marks / name).mkdir()

    @property
    def events(self):
        return self.room / "events"

    def host_command(self):
        return [sys.executable, TESTS / "dying_host.py", self.marks, "run", self.repository]

    def told(self, change, *words):
        """Waits until the log of a change has these words."""
        self.until(f"the log of change {change} says {words}", lambda: all(it in self.report(f"log-{change}") for it in words))

    def is_told_of(self, kind, change):
        """If the command that is told of events has got one of a change. It runs beside the host, so that may be later than the log."""
        lines = self.events.read_text(encoding="utf-8").splitlines(keepends=True) if self.events.exists() else []
        whole = [json.loads(it) for it in lines if it.endswith("\n")]
        return any(it["kind"] == kind and change in it["changes"] for it in whole if "changes" in it)

    def bring(self, person, change, part):
        """A change from the main branch as it is, which a reviewer approves."""
        self.must_git("fetch", "--quiet", "origin", at=self.clone)
        self.push(person, change, {f"parts/number-{change}": part}, beginning=["--detach", "origin/main"])
        self.until(f"there is a report of change {change}", lambda: self.report(f"change-{change}"))
        self.say("rosa", change, "bors r+")

    def explained(self, change):
        return self.show("explain", str(change))

    def killed(self):
        """Kills the host, and starts another one."""
        starts = self.starts
        self.process.send_signal(signal.SIGKILL)
        self.process.wait()
        self.until("the host was started again", lambda: self.starts > starts and self.report("process"))


class FrozenQueue(Dying):
    """rosa freezes the queue while change 1 is tested, and thaws it when change 2 is approved."""

    def check_body(self, name):
        """One check waits as long as it is told to."""
        wait = shlex.quote(str(self.room / "wait"))
        return f"while test -e {wait}; do sleep 0.1; done\n{super().check_body(name)}"

    def happen(self):
        wait = self.room / "wait"
        wait.touch()
        self.keep_running()
        self.bring("ines", 1, "test 1 -gt 0\n")
        self.until("change 1 is tested", lambda: "staging staged" in self.report("queue"))
        self.who_may_not_freezes_nothing()
        self.must_host("freeze", "release 2.0 is being cut", "--repository", str(self.repository), person="rosa")
        self.until("the queue is frozen", lambda: "\nfrozen since " in self.report("queue"))
        self.until("the page says so", lambda: "<h1>The queue is frozen</h1>" in self.report("index.html"))
        self.told(1, "The queue is frozen by rosa: release 2.0 is being cut. Nothing is staged and nothing lands until it is thawed")
        wait.unlink()
        self.told(1, "The check build of batch 1 (change 1) succeeded", "The check lint of batch 1 (change 1) succeeded")
        self.bring("otto", 2, "test 2 -gt 0\n")
        self.told(2, "gate: approved at", "It waits in batch 2. The queue is frozen by rosa: release 2.0 is being cut.")
        must("whether why is explained", "\nThe queue is frozen since " in self.explained(2))
        self.killed()
        # A reading of the clock would be due several times.
        time.sleep(2)
        want("where main is", self.git("rev-parse", "main"), self.first)
        self.stop()
        want("where main is after a start", self.git("rev-parse", "main"), self.first)
        self.keep_running()
        self.must_host("thaw", "--repository", str(self.repository), person="rosa")
        self.told(2, "The queue goes on: rosa has ended the freeze.")
        self.told(1, "Landed on main as")
        self.told(2, "Landed on main as")
        self.until("the queue says no more that it is frozen", lambda: "frozen" not in self.report("queue"))
        self.until("nor does the page", lambda: "<h1>The queue is frozen</h1>" not in self.report("index.html"))
        self.until("the last landing is told", lambda: self.is_told_of("landing", 2))

    def who_may_not_freezes_nothing(self):
        for person in ("milo", "eve"):
            ran = self.host("freeze", "why", "--repository", str(self.repository), person=person)
            want(f"whether {person} may freeze the queue", (ran.returncode, ran.stderr), (
                1, f"gate-host: {person} may not freeze this queue or thaw it; reviewers and the owner of the repository may\n"))


class BrokenMain(Dying):
    """After change 1 has landed, the check build fails on whatever it runs, up to when somebody mends that. Then change 3 breaks it."""

    def causes(self):
        return {3: ("Failed", "build")}

    def make_repository(self):
        super().make_repository()
        self.set("retest_base = no", "retest_base = yes")

    @property
    def is_broken(self):
        return self.room / "is-broken"

    def check_body(self, name):
        body = super().check_body(name)
        return f"test ! -e {shlex.quote(str(self.is_broken))} || exit 9\n{body}" if name == "build" else body

    def happen(self):
        self.keep_running()
        self.bring("ines", 1, "test 1 -gt 0\n")
        self.told(1, "Landed on main as")
        at = self.git("rev-parse", "main")[:7]
        self.is_broken.touch()
        self.bring("otto", 2, "test 2 -gt 0\n")
        since = "It came to that commit by the landing of batch 1 (change 1), for which all that was required had succeeded."
        self.told(
            2, f"The check build of batch 2 (change 2) failed: {BROKEN}. Before that counts, the check build is to run on the main ",
            f"The check build of the main branch alone, at {at}, failed as well: {BROKEN}. So the main branch is broken, and change 2 ",
            f"isn't blamed. {since}", "(Failed)", "so this says nothing against the change.",
        )
        said = f"\nthe main branch is broken: the check build fails on {at} alone: {BROKEN}. {since}\n"
        self.until("the queue says so", lambda: said in self.report("queue"))
        self.until("the page says so", lambda: "<h1>main is broken</h1>" in self.report("index.html"))
        must("whether that is explained", "; the main branch alone failed as well [" in self.explained(2))
        self.killed()
        self.is_broken.unlink()
        self.say("rosa", 2, "bors retry")
        self.told(2, "Landed on main as")
        self.until("the queue says no more so", lambda: "broken" not in self.report("queue"))
        self.bring("vera", 3, "test 1 -gt 2\n")
        self.told(
            3, "The check build of the main branch alone, at ", "succeeded: it ended with status 0", "it isn't main alone that fails it.",
            "The approval or the try has ended (Failed): it fails the check build.",
        )
        self.until("the last failure is told", lambda: self.is_told_of("failure", 3))
        want("what has landed", self.landed(), {1, 2})


# What is looked at when they are over


def facts_of(story):
    with sqlite3.connect(story.repository / "gate/records/journal.db") as journal:
        return journal.execute("SELECT number, kind FROM facts ORDER BY number").fetchall()


def rows_between(story, first, last):
    """The deliveries between two facts, with their answers."""
    with sqlite3.connect(story.repository / "gate/records/journal.db") as journal:
        query = "SELECT line, answer FROM deliveries WHERE fact > ? AND fact < ? ORDER BY number"
        return [(json.loads(line), json.loads(answer)) for line, answer in journal.execute(query, (first, last))]


def nothing_moved_while_it_was_frozen(story):
    """By the journal: between the two no time was told, nothing was ordered, and nothing that has succeeded was told."""
    facts = facts_of(story)
    (frozen,), (thawed,) = ([number for number, kind in facts if kind == wanted] for wanted in ("Frozen", "Thawed"))
    rows = rows_between(story, frozen, thawed)
    must("whether people were told something meanwhile", rows)
    events = {delivery["event"] for delivery, _ in rows}
    must(f"whether {events} has an approval", "comment" in events)
    want("what holds back", events & {"tick", "status"}, set())
    orders = [order["order"] for _, answer in rows for reply in answer for order in reply.get("orders", [])]
    want("what was ordered", orders, [])
    kinds = {kind for number, kind in facts if frozen < number < thawed}
    want("the facts of moves", kinds & {"Moved", "Merged", "Staged", "Ticked"}, set())
    after = [delivery["event"] for delivery, _ in rows_between(story, thawed - 1, thawed + 1)]
    want("what was handed in when it went on", after, ["status", "status"])


def each_base_was_tested_once(story):
    """By the checks themselves: build ran on the commit of the main branch alone, when the change failed, and lint didn't."""
    kinds = [kind for _, kind in facts_of(story)]
    want("how often a failure was doubted", kinds.count("Doubted"), 2)
    want("how often the base was tested", kinds.count("BaseEnded"), 2)


def more_lands_without_build(story):
    """What would have been if build weren't required, by hand. lint has a verdict on all that was merged, and never fails. So change 2
    lands at once, and not after the word retry. Change 3 lands, which never did. Each change has one batch, and nothing is at fault."""
    settings = story.room / "without-build.toml"
    settings.write_text('status = ["lint"]\n', encoding="utf-8")
    found = json.loads(story.show("what-if", "--settings", str(settings), "--json"))
    counts = {when: [found[when][of] for of in ("landed", "batches", "found", "waiting")] for when in ("truly", "before", "after")}
    due = {"truly": [2, 4, 2, 0], "before": [2, 4, 2, 0], "after": [3, 3, 0, 0]}
    want("how many land, of how many batches, and are at fault", counts, due)
    two, three = ([it for it in found["differences"] if it["change"] == change] for change in (2, 3))
    want("how often they differ, and how sure that is", [it["basis"] for it in two + three], ["known", "known"])
    must(f"whether change 2 lands earlier, by {two}", two[0]["after"] < two[0]["before"])
    want("when change 3 lands without it, and truly", (three[0]["before"], three[0]["truly"]), (None, None))
    must(f"whether change 3 lands last, by {three}", three[0]["after"] > two[0]["after"])


def a_landing_was_estimated(story):
    """When change 2 was staged, by the one batch that had landed then. Before that nothing could be said."""
    orders = {order["batch"]: order for _, answer in story.recorded() for reply in answer for order in reply.get("orders", [])
              if order["order"] == "stage"}
    staged = {orders[it["batch"]]["heads"][0][0]: it["id"] for it, _ in story.recorded()[::-1] if it["event"] == "staged"}
    first, second = (json.loads(story.show("explain", str(change), "--at", staged[change], "--json"))["estimate"] for change in (1, 2))
    want("what is said of the first one", first, None)
    must(f"whether {second} rests on one batch", second and second["batches"] == 1 and second["earliest"] <= second["latest"])


def events_were_told_once_or_again(story):
    """Each event has its number. After a death some come again, in their order, and none is lost."""
    lines = [json.loads(line) for line in story.events.read_text(encoding="utf-8").splitlines()]
    by_number = {it["event"]: it for it in lines}
    want("what came again under the same number", [it for it in lines if by_number[it["event"]] != it], [])
    want("the numbers", sorted(by_number), list(range(1, len(by_number) + 1)))
    landed = sorted(change for it in by_number.values() if it["kind"] == "landing" for change in it["changes"])
    want("the landings", landed, sorted(story.landed()))
    kinds = {it["kind"] for it in by_number.values()}
    due = {"landing", "frozen", "thawed"} if isinstance(story, FrozenQueue) else {"landing", "failure", "notice", "broken"}
    want("the kinds of events", kinds, due)


def it_died_at(*steps):
    def died(story):
        marks = {it.name for it in story.marks.iterdir()}
        due = {f"record-{step}-{when}" for step in steps for when in ("before", "after")}
        want("the deaths that are missing", due - marks, set())
    return died


died_while_frozen = it_died_at("Frozen", "Thawed", "Ended", "Moved")
died_while_broken = it_died_at("Doubted", "BaseEnded", "Moved")


def main_has_what_it_should(story):
    want("what main has", set(story.must_git("ls-tree", "-r", "--name-only", "main").split()),
         {*FILES, *(f"parts/number-{change}" for change in story.landed())})
