"""Tests of the loop over ports of values: a world without repositories, processes and time, in which the host dies at every place."""
import json
import re
import sys
import tempfile
import unittest
from collections import Counter
from pathlib import Path
from types import SimpleNamespace
from unittest import mock

sys.path.insert(0, str(Path(__file__).resolve().parent.parent))

from playing import open_in  # noqa: E402

from gate_host import loop, ports, troubles  # noqa: E402
from gate_host.core.duties import BRANCHES, Duties, ToLand, ToMerge, ToTest, answered_in  # noqa: E402
from gate_host.core.facts import Conflicted, Merged  # noqa: E402
from gate_host.core.known import Landing, Member  # noqa: E402
from gate_host.core.notes import note_in  # noqa: E402
from gate_host.faults import Trouble, Unable  # noqa: E402
from gate_host.journal import Journal  # noqa: E402
from gate_host.loop import Host  # noqa: E402
from gate_host.troubles import Troubles  # noqa: E402

A, C, D = (digit * 40 for digit in "acd")
DONE = '[{"orders":[],"verdict":"done"}]'
SETTINGS, REFUSED = 'status = ["build", "lint"]', "max_batch_size = 0"


class Died(BaseException):
    """The host is dead. Nothing in it can catch that."""


def commit_of(changes, base=A):
    """The name of the merge of some changes onto a base."""
    return f"{base[0]}{''.join(map(str, changes))}".ljust(40, "0")


def with_orders(*orders):
    return json.dumps([{"orders": list(orders), "verdict": "done"}])


class World:
    """All that outlasts a host: what the ports touch. Each touch is a place at which the host may die, before and after."""

    def __init__(self, room):
        self.path = room / "journal.db"
        self.main, self.branches, self.mirror = A, {}, set()
        self.heads = {change: f"{change}" * 40 for change in (1, 2, 3, 4)}
        texts = {1: "bors r+", 2: "bors r+", 3: "bors r+", 4: "bors try"}
        self.notes = {f"n{it}": ("rosa", {"change": it, "text": text, "head": self.heads[it]}) for it, text in texts.items()}
        # Whether the branches of what has landed are deleted.
        self.drops = False
        # The settings in the merges of a branch, if they are others.
        self.settings_of_batches = {}
        # To which commit somebody else moves the main branch before the first landing, if anybody does.
        self.moved_to = None
        self.answers, self.said, self.moves, self.time = {}, [], [], 1000
        # Which orders git can't do for now, and how often each was tried.
        self.unable, self.tries = {}, []
        self.touches, self.last = 0, None
        # What is to be done, as the bot has said last.
        self.duties = Duties()

    def touch(self, name):
        """A place at which the host may die."""
        self.touches += 1
        if self.touches == self.last:
            raise Died(name)

    def act(self, name, then=lambda: None):
        self.touch(f"before {name}")
        result = then()
        self.touch(f"after {name}")
        return result


class Bot:
    """A bot that stages change 3 alone, which conflicts, then changes 1 and 2, and lands these; and tries change 4. It answers what comes
    again as before."""

    def __init__(self, world):
        self.world = world

    def hand_in(self, line):
        return self.world.act("hand in", lambda: self.answer(line))

    def read(self, settings):
        if settings == REFUSED:
            return ports.Reading(refusal="max_batch_size = 0 isn't taken")
        wanted, _, heads = settings.partition("pr_status")
        reviews = int((re.findall(r"required_approvals = ([0-9])", settings) or [0])[0])
        names = (tuple(re.findall(r'"([a-z]+)"', it)) for it in (wanted, heads))
        return ports.Reading(*names, reviews, remarks=("team is no key",) if "team" in settings else ())

    def answer(self, line):
        delivery = json.loads(line)
        if delivery["id"] not in self.world.answers:
            self.world.answers[delivery["id"]] = self.new_answer(delivery)
            self.world.said.append(delivery)
            self.world.duties = answered_in(self.line(self.world.answers[delivery["id"]])).duties
        return self.world.answers[delivery["id"]]

    def line(self, answer):
        """What the program would write: its answer, with what is to be done by what was told it alone."""
        staging, trying = (json.dumps(self.duty(branch), separators=(",", ":")) for branch in BRANCHES)
        return f'{{"answer":{answer},"staging":{staging},"trying":{trying}}}'

    def new_answer(self, delivery):
        event = delivery["event"]
        if event == "tick":
            return with_orders(*self.staged())
        if event == "conflict":
            return with_orders({"order": "notice", "change": 3, "why": "Conflict"})
        if event != "status" or delivery["name"] != "lint" or delivery["state"] != "success":
            return DONE
        if delivery["commit"] == commit_of([4]):
            return with_orders({"order": "notice", "change": 4, "why": "TryPassed"})
        return with_orders({"order": "land", "batch": self.last_batch("staging"), "base": self.base(), "commit": delivery["commit"]})

    def duties(self):
        return self.world.duties

    def duty(self, branch):
        batch = self.last_batch(branch)
        told = {it["event"]: it for it in self.world.said if it.get("batch") == batch}
        land = next((it for it in self.orders() if it["order"] == "land" and it["batch"] == batch), None)
        if not batch or {"conflict", "refused"} & set(told) or self.is_ended(batch) or (land and self.base() == land["commit"]):
            return None
        if "staged" not in told:
            return {"do": "merge", "batch": batch}
        if land:
            return {"do": "land", "batch": batch, "base": land["base"], "commit": land["commit"]}
        return {"do": "test", "batch": batch, "commit": told["staged"]["commit"]}

    def is_ended(self, batch):
        """Whether a batch has ended by a notice."""
        changes = [change for it in self.orders() if it["order"] == "stage" and it["batch"] == batch for change, _ in it["heads"]]
        return any(it["order"] == "notice" and it["why"] in ("Failed", "TryPassed") and it["change"] in changes for it in self.orders())

    def orders(self):
        return [order for answer in self.world.answers.values() for reply in json.loads(answer) for order in reply["orders"]]

    def last_batch(self, branch):
        return max([it["batch"] for it in self.orders() if it["order"] == "stage" and it["branch"] == branch], default=0)

    def base(self):
        return [it["commit"] for it in self.world.said if it["event"] == "base"][-1]

    def staged(self):
        """What is ordered to be staged now: each branch has one batch at a time."""
        said, orders = self.world.said, self.orders()
        ended = sum(it["event"] in ("conflict", "refused") or it["id"].endswith(".0") and it["event"] == "base" for it in said)
        waiting = [[3], [1, 2], [1, 2]] if any(it["event"] == "refused" for it in said) else [[3], [1, 2]]
        if sum(it["event"] == "comment" for it in said) < 4:
            return []
        found = []
        if sum(it["order"] == "stage" and it["branch"] == "staging" for it in orders) == ended < len(waiting):
            found.append(("staging", waiting[ended]))
        if not self.last_batch("trying"):
            found.append(("trying", [4]))
        first = max(self.last_batch("staging"), self.last_batch("trying")) + 1
        return [
            {"order": "stage", "batch": number, "branch": branch, "base": self.base(), "heads": [[it, self.world.heads[it]] for it in of]}
            for number, (branch, of) in enumerate(found, first)
        ]

    def close(self):
        pass


class Source:
    def __init__(self, world):
        self.world = world
        self.has_more = False

    def take(self):
        return [note_in(name, *note) for name, note in sorted(self.world.notes.items())]

    def remove(self, name):
        self.world.act("remove", lambda: self.world.notes.pop(name))

    def look(self):
        return ports.Look(self.world.main, dict(self.world.heads))


class Repository:
    def __init__(self, world):
        self.world = world

    def must_be_able(self, what):
        self.world.tries.append(what)
        if self.world.unable.get(what, 0):
            self.world.unable[what] -= 1
            raise Unable("no room")

    def fetch(self, heads):
        return {}

    def forget(self, changes):
        list(changes)

    def settings_at(self, commit, most):
        return SETTINGS

    def settings_of(self, batch):
        return SETTINGS, self.world.settings_of_batches.get(batch.stage.branch, SETTINGS)

    def drop(self, change, head):
        assert self.world.heads[change] == head
        self.world.act("drop", lambda: self.world.heads.pop(change))

    def merge(self, order, batch):
        self.must_be_able("merge")
        if batch.stage.changes == [3]:
            return self.world.act("merge", lambda: Conflicted(order, 3, "both change x"))
        commit = commit_of(batch.stage.changes, batch.stage.base)
        return self.world.act("merge", lambda: (self.world.mirror.add(commit), Merged(order, commit))[1])

    def point(self, batch, known):
        self.must_be_able("point")
        assert batch.commit in self.world.mirror
        self.world.act("point", lambda: self.world.branches.update({batch.stage.branch: batch.commit}))

    def land(self, land, batch):
        self.must_be_able("land")

        def move():
            self.world.main, self.world.moved_to = self.world.moved_to or self.world.main, None
            if self.world.main == land.base:
                self.world.moves.append((land.base, land.commit))
                self.world.main = land.commit
        self.world.act("land", move)
        return self.world.main == land.commit

    def tidy(self, known):
        pass


class Runner:
    """Runs the checks of a commit, one in each round."""

    def __init__(self, world):
        self.world, self.running, self.faults = world, {}, []

    def clear(self):
        pass

    def ended(self, wanted):
        running, self.running = self.running, {}
        for test, _ in running.values():
            assert self.world.branches[test.branch] == test.commit
        return [ports.Result(test, name, "success", "it ended", name) for test, name in running.values() if test in wanted]

    def begin(self, test, settings, done):
        left = [name for name in settings.checks if name not in done]
        if left:
            self.running[test.branch] = (test, left[0])

    def lasting(self):
        return self.faults

    def close(self):
        pass


class Board:
    def __init__(self, world):
        self.is_waiting, self.is_behind = True, False
        self.noted = []

    def waiting(self):
        return {}

    def note(self, delivery, changes):
        self.noted.append((delivery.id, list(changes)))

    def refresh(self, program, remarks):
        self.remarks = remarks

    def close(self):
        pass


class DyingJournal(Journal):
    """A journal whose host may die before a step is written, and after."""

    def __init__(self, world):
        super().__init__(world.path)
        # These tests don't cut the power.
        self.database.execute("PRAGMA synchronous = OFF")
        self.world = world

    def record(self, known, at, fact):
        self.world.act(f"record {type(fact).__name__}", lambda: super(DyingJournal, self).record(known, at, fact))

    def keep_answer(self, known, at, answer):
        return self.world.act("keep answer", lambda: super(DyingJournal, self).keep_answer(known, at, answer))


class Clock:
    def __init__(self, world):
        self.world = world

    def now(self):
        return self.world.time

    def running(self):
        return self.world.time


class Owner:
    def __init__(self):
        self.settings = SimpleNamespace(
            look_seconds=0.0, tick_seconds=0.0, may_push=frozenset(), checks={"build": "b", "lint": "l"}, program="gate",
            delete_branches=False, retest_base=False, parallel=False,
        )
        self.roles, self.main, self.first, self.reporters, self.has_reviews = {"rosa": "reviewer"}, "main", "", {}, False
        self.own_status = "queue"

    def read(self):
        return [("settings", ""), ("roles", ""), ("reporters", "")]


class AfterLanding:
    """Notes for which landings it was to run."""

    def __init__(self):
        self.commits = []

    def go_on(self, settings, landings):
        self.commits = list(landings)
        return ""

    def close(self):
        pass


class OnEvent:
    """Notes of what it was to tell, by kind."""

    def __init__(self):
        self.kinds = []

    def go_on(self, settings, events):
        self.kinds = [it.kind for it in events.last]
        return ""

    def close(self):
        pass


class AgreeingHost(Host):
    """A host that looks, whenever it is about to do something, whether the facts and the orders alone say the same as the bot."""

    def do_first(self):
        assert self.ports.bot.duties() == open_in(self.known), (self.ports.bot.duties(), open_in(self.known))
        return super().do_first()


def host_in(world):
    journal = DyingJournal(world)
    given = ports.Ports(
        source=Source(world), repository=Repository(world), runner=Runner(world), bot=Bot(world), journal=journal, clock=Clock(world),
        board=Board(world), owner=Owner(), after=AfterLanding(),
        on_event=OnEvent(),
    )
    given.owner.settings.delete_branches = world.drops
    return AgreeingHost(given, journal.known(), "owner", 3, Troubles())


class InWorld(unittest.TestCase):
    def setUp(self):
        room = tempfile.TemporaryDirectory()
        self.addCleanup(room.cleanup)
        self.room = Path(room.name)
        for module in (loop, troubles):
            patched = mock.patch.object(module, "complain")
            patched.start()
            self.addCleanup(patched.stop)

    def world(self, name):
        (self.room / name).mkdir()
        return World(self.room / name)

    def play(self, world, most=60):
        """Lets hosts work until changes 1 and 2 have landed and nothing is left, a new one whenever one has died. Gives the last one."""
        host = host_in(world)
        for _ in range(most):
            world.time += 10
            try:
                host.round()
            except Died:
                host.ports.journal.close()
                host = host_in(world)
            except Unable:
                pass
            phases = {change: it.phase for change, it in host.known.changes.items()}
            is_over = phases == {1: "landed", 2: "landed", 3: "open", 4: "open"} and host.known.settings_of == world.main
            is_tried = sum(it["event"] == "status" for it in world.said) >= 4
            is_tidy = not world.drops or set(world.heads) == {3, 4}
            if is_over and is_tried and is_tidy and not world.notes and not host.known.waiting:
                return host
        raise AssertionError(f"it doesn't come to its end: {phases}, {world.said}")


class DeathTests(InWorld):
    def told(self, host):
        return {change: [text for _, text in host.ports.journal.told(change)] for change in (1, 2, 3, 4)}

    def outcome(self, world, host):
        # In which order changes are opened is left to who comes first.
        events = sorted(it["event"] for it in world.said if it["event"] != "tick")
        rest = [it for it in world.said if it["event"] in ("staged", "conflict", "refused") or re.search(r"\.[0-9]$", it["id"])]
        return events, sorted(it["event"] for it in rest), world.main, world.branches, world.moves, self.told(host)

    def dies_at_each_place(self, name, moved_to):
        calm = self.world(name)
        calm.moved_to, calm.drops = moved_to, True
        host = self.play(calm)
        due = self.outcome(calm, host)
        host.ports.journal.close()
        for place in range(1, calm.touches + 1):
            world = self.world(f"{name}-dies-{place}")
            world.last, world.moved_to, world.drops = place, moved_to, True
            host = self.play(world)
            self.assertEqual(self.outcome(world, host), due, f"dies at {place}")
            # What the last host knows is what a new one would.
            self.assertEqual(host.ports.journal.known(), host.known, f"dies at {place}")
            host.ports.journal.close()
        return calm.touches, due

    def test_a_host_that_dies_at_any_place_comes_to_the_same_end(self):
        places, due = self.dies_at_each_place("calm", None)
        landed = commit_of([1, 2])
        # Each thing is told once.
        told = {"role": 1, "base": 2, "settings": 2, "opened": 4, "comment": 4, "staged": 2, "conflict": 1, "status": 4}
        self.assertEqual(Counter(due[0]), told)
        self.assertEqual(due[1:3], (["base", "conflict", "staged", "staged"], landed))
        self.assertEqual(due[3:5], ({"staging": landed, "trying": commit_of([4])}, [(A, landed)]))
        self.assertEqual(due[5][1][-1], f"Landed on main as {landed}, with changes 1, 2. Approved by rosa.")
        self.assertEqual(due[5][4][-1], "The try has passed: all required checks succeed (TryPassed).")
        self.assertGreater(places, 80)

    def test_so_it_is_if_somebody_else_moves_the_main_branch_before_the_landing(self):
        _, due = self.dies_at_each_place("moved", D)
        landed = commit_of([1, 2], D)
        self.assertEqual(due[1], ["base", "conflict", "refused", "staged", "staged", "staged"])
        self.assertEqual((due[2], due[4]), (landed, [(D, landed)]))


class OrderTests(InWorld):
    def test_git_that_can_not_merge_for_now_is_asked_again_and_people_are_told_once(self):
        world = self.world("unable")
        world.unable = {"merge": 1, "point": 3}
        self.addCleanup(setattr, loop, "RETRY_SECONDS", loop.RETRY_SECONDS)
        loop.RETRY_SECONDS = 0
        host = self.play(world)
        # Two batches on one branch and one on the other are merged, and two pointed to.
        self.assertEqual((world.tries.count("merge"), world.tries.count("point")), (3 + 1, 2 + 3))
        told = [text for change in (1, 3, 4) for _, text in host.ports.journal.told(change)]
        for batch in ("1 (change 3)", "2 (change 4)", "3 (changes 1, 2)"):
            found = told.count(f"Batch {batch} can't be staged yet, for a reason of the host: no room")
            self.assertLessEqual(found, 1, batch)
        self.assertIn("Batch 1 (change 3) can't be staged yet, for a reason of the host: no room", told)
        self.assertEqual(host.troubles.said, {})
        host.ports.journal.close()

    def test_a_landing_that_can_not_be_done_for_now_holds_up_everything_else(self):
        world = self.world("held")
        world.unable = {"land": 2}
        host = host_in(world)
        with self.assertRaisesRegex(Unable, "batch 3 can't be landed yet: no room"):
            for _ in range(60):
                world.time += 10
                host.round()
        before = len(world.said)
        world.notes["n9"] = ("rosa", {"change": 1, "text": "bors ping", "head": world.heads[1]})
        with self.assertRaises(Unable):
            host.round()
        self.assertEqual((len(world.said), world.main), (before, A))
        host.round()
        self.assertEqual([it["event"] for it in world.said[before:before + 2]], ["base", "settings"])
        host.ports.journal.close()

    def test_a_main_branch_that_was_moved_is_refused(self):
        world = self.world("moved")
        host = host_in(world)
        land = Repository.land
        self.addCleanup(setattr, Repository, "land", land)

        def moved_before(self, order, batch):
            world.main = D
            return land(self, order, batch)
        Repository.land = moved_before
        for _ in range(60):
            world.time += 10
            host.round()
            if any(it["event"] == "refused" for it in world.said):
                break
        events = [(it["event"], it.get("commit")) for it in world.said if it["event"] in ("refused", "base")]
        self.assertEqual(events, [("base", A), ("refused", None), ("base", D)])
        self.assertEqual(world.moves, [])
        host.ports.journal.close()


class DutyTests(InWorld):
    """A host does what the bot says is to be done, and nothing else."""

    def host_before(self, world, what):
        """A host, right before it does something the first time, and what its bot says is to be done then."""
        host = host_in(world)
        before = mock.Mock(side_effect=Died)
        with mock.patch.object(type(host.ports.repository) if what != "begin" else type(host.ports.runner), what, before):
            for _ in range(60):
                world.time += 10
                try:
                    host.round()
                except Died:
                    duties = host.ports.bot.duties()
                    host.do_first = lambda: Host.do_first(host)
                    return host, duties
        raise AssertionError(f"it doesn't come to {what}")

    def round_with(self, host, duties):
        with mock.patch.object(host.ports.bot, "duties", lambda: duties):
            host.round()

    def test_what_does_not_fit_what_was_ordered_ends_the_host(self):
        for what, wrong in (
            ("merge", (ToMerge(9), ToTest(1, C), ToLand(1, A, C))), ("point", (ToMerge(9), ToTest(3, commit_of([1, 2])))),
            ("land", (ToMerge(3), ToLand(3, A, D), ToLand(3, D, commit_of([1, 2])), ToLand(9, A, commit_of([1, 2])))),
            ("begin", (ToMerge(2), ToTest(9, commit_of([4])), ToTest(2, D))),
        ):
            world = self.world(what)
            host, _ = self.host_before(world, what)
            before = world.main, dict(world.branches), len(world.said)
            for duty in wrong:
                duties = Duties(trying=duty) if what == "begin" else Duties(duty)
                with mock.patch.object(host.ports.runner, "begin") as began, self.assertRaisesRegex(Trouble, "doesn't fit the journal"):
                    self.round_with(host, duties)
                began.assert_not_called()
                self.assertEqual((world.main, world.branches, len(world.said)), before, (what, duty))
            host.ports.journal.close()

    def test_what_is_not_to_be_done_any_more_is_not_done(self):
        """The bot may have put a batch back or dropped it, although no later order for its branch has come."""
        for what, is_done in (
            ("merge", lambda world: "merge" in world.tries), ("point", lambda world: world.branches), ("land", lambda world: world.moves),
        ):
            world = self.world(what)
            host, _ = self.host_before(world, what)
            world.tries, world.branches = [], {}
            host.ports.board.is_waiting = False
            self.round_with(host, Duties())
            self.assertFalse(is_done(world), what)
            host.round()
            self.assertTrue(is_done(world), what)
            host.ports.journal.close()

    def test_only_what_is_tested_has_its_checks_run(self):
        world = self.world("checks")
        host, duties = self.host_before(world, "begin")
        began, wanted = [], []
        host.ports.board.is_waiting = False
        host.ports.runner.ended = lambda tests: wanted.append([it.batch for it in tests]) or []
        host.ports.runner.begin = lambda test, settings, done: began.append(test.batch)
        for now in (Duties(), duties, Duties()):
            self.round_with(host, now)
        self.assertEqual((duties, wanted, began), (Duties(None, ToTest(2, commit_of([4]))), [[], [2], []], [2]))
        host.ports.journal.close()

    def test_what_can_not_be_staged_is_no_trouble_any_more_when_it_is_over(self):
        world = self.world("over")
        world.unable = {"merge": 1}
        host = host_in(world)
        host.do_first = lambda: Host.do_first(host)
        while not host.troubles.said:
            world.time += 10
            host.round()
        self.assertEqual(list(host.troubles.said), ["stage staging"])
        host.ports.board.is_waiting = False
        self.round_with(host, Duties(None, host.ports.bot.duties().trying))
        self.assertEqual((host.troubles.said, world.tries.count("merge")), ({}, 2))
        host.ports.journal.close()


class CheckTests(InWorld):
    def test_a_fault_is_told_once_and_shown_while_it_lasts(self):
        """Of each check of a batch people are told once that it has come to no verdict, however often it is tried again."""
        world = self.world("fault")
        host = host_in(world)
        runner = host.ports.runner
        for _ in range(60):
            world.time += 10
            host.round()
            if "trying" in host.known.tests:
                break
        test = host.known.tests["trying"]
        fault = ports.Fault(test, "build", "it was killed")
        runner.ended, runner.faults = (lambda wanted: [fault]), [fault]
        said = "he check build of batch 2 (change 4) has come to no verdict, by a fault of the host, and is tried again: it was killed."
        for _ in range(3):
            host.round()
            self.assertEqual(host.troubles.texts(), [f"t{said}"])
        self.assertEqual([text for _, text in host.ports.journal.told(4)].count(f"T{said}"), 1)
        self.assertNotIn("status", [it["event"] for it in world.said])
        runner.ended, runner.faults = (lambda wanted: [ports.Result(test, "build", "error", "it was killed", "x")]), []
        host.round()
        states = [it["state"] for it in world.said if it["event"] == "status"]
        self.assertEqual((host.troubles.texts(), states), ([], ["error"]))
        host.ports.journal.close()

    def until_tested(self, world, host, branch):
        for _ in range(60):
            world.time += 10
            host.round()
            if branch in host.known.tests:
                return host.known.tests[branch]
        raise AssertionError(f"nothing is tested on {branch}")

    def test_a_batch_with_settings_by_which_nothing_could_land_fails_at_once(self):
        """It isn't tested, and fails once, also if the host dies after."""
        for name, settings, why in (
            ("missing", 'status = ["build", "tests"]', "its bors.toml requires the status tests, for which there is neither a command"),
            ("refused", REFUSED, "its bors.toml would be refused: max_batch_size = 0 isn't taken"),
            ("gone", None, "with this there would be no bors.toml"),
            ("reviews", f"{SETTINGS}\nrequired_approvals = 2",
             "its bors.toml requires reviews (2 of a change), which nobody can give here"),
            ("own", f'{SETTINGS}\npr_status = ["queue"]', "the status queue of heads, which the host itself sets"),
            ("heads", f'{SETTINGS}\npr_status = ["build"]', "the status build of heads of changes, for which there is no reporter"),
        ):
            world = self.world(name)
            world.settings_of_batches = {"trying": settings}
            host = host_in(world)
            host.ports.runner.begin = lambda *given: None
            test = self.until_tested(world, host, "trying")
            host.round()
            host.ports.journal.close()
            host = host_in(world)
            began = []
            host.ports.runner.begin = lambda test, settings, done: began.append(test.branch)
            host.round()
            states = [(it["name"], it["state"]) for it in world.said if it["event"] == "status" and it["commit"] == test.commit]
            self.assertEqual((states, "trying" in began), ([("build", "failure")], False), name)
            told = [text for _, text in host.ports.journal.told(4) if why in text]
            self.assertEqual((len(told), "output" in told[0]), (1, False), name)
            host.ports.journal.close()

    def test_a_batch_whose_settings_somebody_reports_is_tested(self):
        world = self.world("reported")
        world.settings_of_batches = {"trying": 'status = ["build", "tests"]'}
        host = host_in(world)
        host.ports.owner.reporters = {"tests": frozenset({"ci"})}
        began = []
        host.ports.runner.begin = lambda test, settings, done: began.append(test.branch)
        self.until_tested(world, host, "trying")
        host.round()
        self.assertIn("trying", began)
        host.ports.journal.close()

    def test_settings_that_nothing_can_land_by_are_told(self):
        world = self.world("locked")
        host = host_in(world)
        host.ports.owner.settings.checks = {"build": "b"}
        host.round()
        said = ("bors.toml requires the status lint, for which there is neither a command in the settings of the host nor a reporter, so "
                "nothing can land")
        self.assertEqual(host.troubles.texts(), [said])
        host.ports.owner.reporters = {"lint": frozenset({"ci"})}
        host.round()
        self.assertEqual(host.troubles.texts(), [])
        host.ports.journal.close()

    def test_settings_that_are_refused_are_told_with_what_is_wrong(self):
        world = self.world("settings")
        host = host_in(world)
        for settings, due in ((REFUSED, ["the settings of main aren't taken: max_batch_size = 0 isn't taken"]),
                              ("team = 1", ["bors.toml: team is no key"]), ("", [])):
            host.known.settings, host.known.refusal = settings, "why" if settings == REFUSED else ""
            host.look_at_settings()
            self.assertEqual(host.said_of_settings, due)
        host.known.settings, host.known.refusal = None, "why"
        host.look_at_settings()
        self.assertEqual(host.remarks()[2:3], ["the settings of main aren't taken: why"])
        host.ports.journal.close()

    def test_a_reporter_reports_what_no_command_tests(self):
        world = self.world("reports")
        host = host_in(world)
        host.ports.owner.settings.checks = {"build": "b"}
        host.ports.owner.reporters = {"lint": frozenset({"ci"}), "build": frozenset({"ci"})}
        host.ports.runner.begin = lambda *given: None
        test = self.until_tested(world, host, "trying")
        report = {"kind": "status", "commit": test.commit, "name": "lint", "state": "success", "description": "at 7"}
        world.notes = {
            "r1": ("eve", report), "r2": ("ci", {**report, "name": "build"}), "r3": ("ci", {**report, "commit": "9" * 40}),
            "r4": ("ci", {**report, "state": "fine"}), "r5": ("ci", report),
        }
        host.round()
        self.assertEqual(world.notes, {})
        # A note that is put back counts once.
        world.notes["r5"] = ("ci", report)
        host.round()
        states = [(it["commit"], it["name"], it["state"]) for it in world.said if it["event"] == "status"]
        self.assertEqual(states, [(test.commit, "lint", "success")])
        told = [text for _, text in host.ports.journal.told(4)]
        self.assertIn("The check lint of batch 2 (change 4) succeeded: as ci reports: at 7.", told)
        host.ports.journal.close()

    def test_a_report_keeps_no_batch_from_failing_at_once(self):
        """It may come between the move of the branch and the next look at the checks."""
        world = self.world("early")
        world.settings_of_batches = {"trying": 'status = ["build", "nobody"]'}
        host = host_in(world)
        host.ports.owner.reporters = {"other": frozenset({"ci"})}
        with mock.patch.object(host, "check"):
            test = self.until_tested(world, host, "trying")
        report = {"kind": "status", "commit": test.commit, "name": "other", "state": "pending", "description": ""}
        world.notes["r"] = ("ci", report)
        for _ in range(3):
            host.round()
        told = [text for _, text in host.ports.journal.told(4)]
        self.assertEqual(len([it for it in told if "requires the status nobody" in it]), 1, told)
        host.ports.journal.close()

    def test_a_batch_waits_until_its_settings_can_be_read(self):
        """Such as while the disk is full. The host goes on, and asks again after a while."""
        world = self.world("unread")
        world.settings_of_batches = {"trying": 'status = ["build"]'}
        host = host_in(world)
        began, read, asked = [], host.ports.bot.read, []

        def cannot(settings):
            asked.append(settings)
            raise Unable("no room")
        host.ports.runner.begin = lambda test, settings, done: began.append(test.branch)
        with mock.patch.object(host, "fails_at_once", lambda test: True):
            self.until_tested(world, host, "trying")
        host.ports.bot.read = cannot
        for _ in range(3):
            host.round()
        self.assertEqual((began, len(asked)), ([], 1))
        self.assertTrue(any("no room" in it for it in host.troubles.texts()), host.troubles.texts())
        host.ports.bot.read, host.next_reading = read, 0.0
        host.round()
        self.assertEqual(("trying" in began, host.troubles.texts()), (True, []))
        host.ports.journal.close()

    def test_a_command_runs_in_the_place_of_what_is_only_pending_elsewhere(self):
        world = self.world("pending")
        host = host_in(world)
        host.ports.owner.settings.checks = {"build": "b"}
        host.ports.owner.reporters = {"lint": frozenset({"ci"})}
        test = self.until_tested(world, host, "trying")
        world.notes["r"] = ("ci", {"kind": "status", "commit": test.commit, "name": "lint", "state": "pending", "description": ""})
        host.round()
        host.ports.owner.settings.checks = {"build": "b", "lint": "l"}
        for _ in range(5):
            host.round()
        states = [(it["name"], it["state"]) for it in world.said if it["event"] == "status" and it["commit"] == test.commit]
        self.assertIn(("lint", "success"), states)
        host.ports.journal.close()


class ReviewTests(InWorld):
    def test_a_review_counts_with_the_role_that_its_look_has_found(self):
        world = self.world("review")
        host = host_in(world)
        look = host.ports.source.look

        def with_review():
            host.ports.owner.roles["vera"] = "reviewer"
            found = look()
            return ports.Look(found.main, found.heads, details={it: ports.Detail("ines", (), {"vera": True}, 5) for it in found.heads})
        with mock.patch.object(host.ports.source, "look", with_review):
            host.look()
        host.ports.journal.close()
        self.assertEqual([(it["change"], it["person"]) for it in world.said if it["event"] == "review"], [
            (change, "vera") for change in (1, 2, 3, 4)])


class LandingTests(InWorld):
    def test_many_branches_of_landed_changes_hold_nobody_up(self):
        """Some go in a look. One that can't go is tried again later, and no trouble any more when somebody has moved it."""
        host = host_in(self.world("many"))
        host.ports.owner.settings.delete_branches = True
        dropped = []

        def drop(change, head):
            if change == 3:
                raise Unable("it can't be deleted")
            dropped.append(change)
        host.ports.repository.drop = drop
        for change in range(1, 101):
            commit = f"{change:040}"
            host.known.landings[commit] = Landing(change, A, commit, (Member(change, C, ""),))
            host.known.landed_by[change] = commit
        host.heads = {change: C for change in range(1, 101)}
        while host.heads:
            before = len(dropped)
            host.drop_branches()
            host.heads = {change: head for change, head in host.heads.items() if change not in dropped}
            self.assertLessEqual(len(dropped) - before, 20)
            if host.heads == {3: C}:
                self.assertEqual(host.troubles.texts(), ["it can't be deleted"])
                host.heads = {3: D}
                host.drop_branches()
                break
        self.assertEqual((sorted(dropped), host.troubles.texts()), ([*range(1, 3), *range(4, 101)], []))
        host.ports.journal.close()

    def test_branches_of_what_has_landed_go_if_the_owner_wants_that(self):
        world = self.world("branches")
        host = self.play(world)
        self.assertEqual(set(world.heads), {1, 2, 3, 4})
        self.assertEqual(host.ports.after.commits, [world.main])
        world.heads[2] = "2" * 39 + "f"
        host.ports.owner.settings.delete_branches = True
        for _ in range(2):
            host.round()
        self.assertEqual(set(world.heads), {2, 3, 4})
        host.ports.journal.close()


class ClockTests(InWorld):
    def ticks(self, world):
        return [it["event"] for it in world.said].count("tick")

    def test_the_next_batch_is_ordered_at_once(self):
        """A clock reading is due only each hour. After a batch has ended the next one is told right away."""
        world = self.world("hurry")
        host = host_in(world)
        while not any(it["event"] == "conflict" for it in world.said):
            world.time += 10
            host.round()
        host.ports.owner.settings.tick_seconds, host.next_tick = 3600.0, float("inf")
        before = self.ticks(world)
        host.round()
        self.assertEqual(self.ticks(world), before + 1)
        self.assertIn("staged", [it["event"] for it in world.said])
        host.round()
        self.assertEqual(self.ticks(world), before + 1)
        host.ports.journal.close()

    def test_what_is_approved_after_a_quiet_time_waits_for_the_next_reading(self):
        """Although a batch has ended since the last one: nothing waited by then."""
        world = self.world("quiet")
        host = self.play(world)
        host.ports.owner.settings.tick_seconds, host.next_tick = 3600.0, float("inf")
        for is_waiting in (False, True, True):
            host.ports.board.is_waiting = is_waiting
            before = self.ticks(world)
            world.notes[f"late-{is_waiting}"] = ("rosa", {"change": 3, "text": "bors r+", "head": world.heads[3]})
            host.round()
            self.assertEqual(self.ticks(world), before)
        host.ports.journal.close()

    def test_no_time_is_told_while_nothing_waits(self):
        world = self.world("idle")
        world.notes.clear()
        host = host_in(world)
        host.ports.board.is_waiting = False
        for _ in range(3):
            world.time += 10
            host.round()
        self.assertNotIn("tick", [it["event"] for it in world.said])
        host.ports.journal.close()


class BoardTests(InWorld):
    def test_what_the_reports_say_besides(self):
        world = self.world("board")
        host = self.play(world)
        host.troubles.say("names", "x is in the way\x1b[2J")
        self.assertEqual(host.remarks(), [
            "open: changes 3, 4; the next free number is 5", "checks: build, lint", "trouble: x is in the way?[2J",
        ])
        self.assertIn(("comment-8", [1]), host.ports.board.noted)
        host.ports.journal.close()


if __name__ == "__main__":
    unittest.main()
