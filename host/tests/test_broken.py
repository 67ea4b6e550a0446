"""Tests of a main branch that is broken by itself: tables of facts, and a loop that tests the base before it tells of a failure."""
import json
import unittest
from types import SimpleNamespace

from playing import A, B, BEFORE, C, D, DONE, LANDED, NOTICE, ORDERED, Play, STAGED, stage, with_orders
from test_loop import InWorld, host_in

from gate_host import ports
from gate_host.core.broken import MAIN, Broken, base_test, done_on_base, is_doubtful
from gate_host.core.facts import BaseEnded, Doubted, Ended, MainSeen, Merged, Opened, Said, Staged, Ticked
from gate_host.core.known import End, Test
from gate_host.core.words import SINCE_PUSH

FAILED = Doubted(1, "build", "failure", "it ended with status 1", "1-0-build")
FAILS = BaseEnded(1, "build", "failure", "it ended with status 2", "1-0-build-on-main")
PASSES = BaseEnded(1, "build", "success", "it ended with status 0", "1-0-build-on-main")
NO_VERDICT = BaseEnded(1, "build", "error", "it took more than 9 seconds", "")
TOLD = with_orders(NOTICE)
# A batch of one change after one that has landed, on the commit of that landing.
NEXT = [
    *LANDED, (MainSeen(C, 'status = ["build"]\n'), DONE), (Opened(8, "otto", D), DONE), (Said("n8", 8, "rosa", "bors r+"), DONE),
    (Ticked(90), with_orders(stage(batch=2, base=C, heads=((8, D),)))), (Merged("tick-13.0", "9" * 40),), (Staged("tick-13.0"), DONE),
]


class DoubtTests(unittest.TestCase):
    def test_a_failure_is_told_the_bot_when_the_base_was_tested(self):
        for of_base in (FAILS, PASSES, NO_VERDICT):
            play = Play(*STAGED, (FAILED,))
            self.assertEqual((play.known.waiting, play.known.results["staging"]), ([], {"build": "failure"}))
            play.known.learn(9, 0, of_base)
            line = json.loads(play.known.waiting[0].line)
            self.assertEqual(line, {"id": "status-9", "event": "status", "commit": C, "name": "build", "state": "failure"}, of_base)
            self.assertEqual(play.known.doubts, {})

    def test_what_the_base_comes_to_without_a_doubt_tells_the_bot_nothing(self):
        for play in (Play(*STAGED), Play(*STAGED, (FAILED,), (FAILS, TOLD))):
            broken = play.known.broken
            self.assertEqual(play.known.learn(19, 0, BaseEnded(1, "lint", "failure", "it ended", "")), [])
            self.assertEqual((play.known.waiting, play.known.broken), ([], broken))

    def test_what_people_are_told(self):
        play = Play(*STAGED, (FAILED,), (FAILS, TOLD))
        self.assertEqual([it.text for it in play.told[-3:]], [
            "The check build of batch 1 (change 7) failed: it ended with status 1. Before that counts, the check build is to run on the "
            "main branch alone, at aaaaaaa.\noutput: 1-0-build",
            "The check build of the main branch alone, at aaaaaaa, failed as well: it ended with status 2. So the main branch is broken, "
            f"and change 7 isn't blamed. {SINCE_PUSH}\noutput: 1-0-build-on-main",
            "The approval has ended (Failed), as always if a check of a batch of one change fails. But the main branch alone fails the "
            "check build as well, so this says nothing against the change. When main is mended, have it retried by bors retry.",
        ])
        self.assertEqual(play.known.ends[7], End("Failed", "build", C, is_of_main=True))
        play = Play(*STAGED, (FAILED,), (PASSES, TOLD))
        self.assertEqual(play.told[-2].text, (
            "The check build of the main branch alone, at aaaaaaa, succeeded: it ended with status 0. So it isn't main alone that fails it."
            "\noutput: 1-0-build-on-main"))
        self.assertTrue(play.told[-1].text.startswith("The approval or the try has ended (Failed): it fails the check build."))
        self.assertEqual(play.known.ends[7], End("Failed", "build", C))
        play = Play(*STAGED, (FAILED,), (NO_VERDICT, TOLD))
        self.assertEqual(play.told[-2].text, (
            "The check build of the main branch alone, at aaaaaaa, came to no verdict: it took more than 9 seconds. So it isn't known "
            "whether main alone fails it."))
        self.assertIsNone(play.known.broken)

    def test_since_which_landing(self):
        play = Play(*NEXT, (Doubted(2, "build", "failure", "it ended", ""),))
        play.known.learn(17, 900, BaseEnded(2, "build", "failure", "it ended", ""))
        since = "It came to that commit by the landing of batch 1 (change 7), for which all that was required had succeeded."
        self.assertEqual(play.known.broken, Broken("build", C, "it ended", "", 900, since))

    def test_all_whose_changes_are_approved_are_told(self):
        approved = [*NEXT, (Opened(9, "ines", B), DONE), (Said("n9", 9, "rosa", "bors r+"), DONE)]
        play = Play(*approved, (Doubted(2, "build", "failure", "x", ""),))
        told = play.known.learn(20, 0, BaseEnded(2, "build", "failure", "it ended", ""))
        self.assertEqual([it.change for it in told], [8, 9])
        told = Play(*NEXT, (Doubted(2, "build", "failure", "x", ""),)).known.learn(20, 0, BaseEnded(2, "build", "success", "it ended", ""))
        self.assertEqual([it.change for it in told], [8])

    def test_each_check_that_main_fails_is_told(self):
        """The first one stands for all in the report of the queue."""
        doubts = [(Doubted(2, name, "failure", "x", ""),) for name in ("build", "lint")]
        play = Play(*NEXT, *doubts, (BaseEnded(2, "build", "failure", "it ended", ""), DONE))
        self.assertIn("The check lint of the main branch alone", play.known.learn(20, 0, BaseEnded(2, "lint", "failure", "x", ""))[0].text)
        self.assertEqual((play.known.broken.name, [it.fields["name"] for it in play.known.events.last if it.kind == "broken"]), (
            "build", ["build", "lint"]))

    def test_it_is_broken_up_to_the_next_base(self):
        play = Play(*STAGED, (FAILED,), (FAILS, TOLD))
        self.assertEqual((play.known.broken.name, play.known.base_states), ("build", {A: {"build": "failure"}}))
        play.known.learn(10, 0, MainSeen(D, None))
        self.assertEqual((play.known.broken, play.known.base_states), (None, {}))

    def test_the_base_of_a_batch_that_is_over_does_not_count_for_the_branch(self):
        play = Play(*STAGED, (FAILED,), (MainSeen(D, None), DONE), (FAILS, DONE))
        self.assertEqual((play.known.broken, play.known.base_states), (None, {}))

    def test_the_command_of_the_owner_is_told(self):
        known = Play(*STAGED, (FAILED,), (FAILS, TOLD)).known
        self.assertEqual([(it.kind, it.fields.get("name")) for it in known.events.last], [
            ("failure", "build"), ("broken", "build"), ("notice", "build")])


class TestedTests(unittest.TestCase):
    def test_when_the_base_is_tested(self):
        for steps, due in (
            (STAGED, None), ([*STAGED, (FAILED,)], Test(MAIN, 1, A)), ([*STAGED, (FAILED,), (FAILS, TOLD)], None),
            ([*STAGED, (FAILED,), (Ended(1, "lint", "failure", "x", ""), TOLD)], None),
            ([*STAGED, (FAILED,), (Ended(1, "lint", "success", "x", ""), DONE)], Test(MAIN, 1, A)),
        ):
            self.assertEqual(base_test(Play(*steps).known), due)

    def test_what_is_doubtful(self):
        for steps, branch, name, due in (
            (STAGED, "staging", "build", True), (STAGED, "staging", "lint", False),
            ([*STAGED, (FAILED,), (PASSES, DONE)], "staging", "build", False),
            ([*BEFORE, (Ticked(50), with_orders(stage(branch="trying")))], "trying", "build", False),
            ([*STAGED, (Ended(1, "lint", "failure", "x", ""), TOLD)], "staging", "build", False),
            ([*BEFORE, (Ticked(50), with_orders(stage(heads=((7, B), (8, D)))))], "staging", "build", False),
        ):
            known = Play(*steps).known
            self.assertEqual(is_doubtful(known, known.batches[branch], name, ("build",)), due, (branch, name, due))

    def test_which_checks_run_on_the_base(self):
        known = Play(*STAGED, (Doubted(1, "test", "failure", "x", ""),)).known
        test, checks = base_test(known), ("build", "test", "lint")
        self.assertEqual(done_on_base(known, test, checks, False), {"lint": "skipped"})
        self.assertEqual(done_on_base(known, test, checks, True), {"build": "skipped", "lint": "skipped"})
        known.learn(9, 0, BaseEnded(1, "build", "success", "x", ""))
        self.assertEqual(done_on_base(known, test, checks, False), {"build": "success", "lint": "skipped"})


class Runner:
    """Runs each check at once. Those of `bad` fail on these branches."""

    def __init__(self, bad):
        self.bad, self.begun, self.results = bad, [], []

    def clear(self):
        pass

    def ended(self, wanted):
        results, self.results = self.results, []
        return [it for it in results if it.test in wanted]

    def begin(self, test, settings, done):
        left = [name for name in settings.checks if name not in done]
        if left and not any(it.test == test and it.name == left[0] for it in self.results):
            self.begun.append((test.branch, left[0]))
            state = "failure" if left[0] in self.bad.get(test.branch, ()) else "success"
            self.results.append(ports.Result(test, left[0], state, "it ended", f"{test.batch}-0-{left[0]}"))

    def lasting(self):
        return []

    def close(self):
        pass


class LoopTests(InWorld):
    def plays(self, bad, retest=True):
        """A host whose change 1 is staged alone, up to the end of its test."""
        world = self.world("broken")
        host = host_in(world)
        host.ports.owner.settings.retest_base = retest
        object.__setattr__(host.ports, "runner", Runner(bad))
        world.notes = {}
        bot = host.ports.bot
        bot.new_answer = lambda it: with_orders(NOTICE) if it["event"] == "status" and it["state"] == "failure" else DONE
        host.round()
        host.known.approved.add(1)
        answers = {"tick": with_orders(stage(heads=((1, "1" * 40),)))}
        bot.new_answer = lambda it: answers.pop(it["event"], with_orders({**NOTICE, "change": 1}) if it.get("state") == "failure" else DONE)
        for _ in range(6):
            world.time += 10
            host.round()
        states = [(it["name"], it["state"]) for it in world.said if it["event"] == "status"]
        begun, known = host.ports.runner.begun, host.known
        host.ports.journal.close()
        return begun, states, known, host

    def test_the_base_is_tested_before_the_failure_is_told(self):
        begun, states, known, host = self.plays({"staging": ("build",), MAIN: ("build",)})
        self.assertEqual(begun[:3], [("staging", "build"), ("staging", "lint"), (MAIN, "build")])
        self.assertEqual(states, [("lint", "success"), ("build", "failure")])
        self.assertEqual((known.broken.name, known.ends[1].is_of_main), ("build", True))
        self.assertTrue(host.remarks()[0].startswith("the main branch is broken: the check build fails on aaaaaaa alone: it ended."))

    def test_a_base_that_passes_takes_no_blame(self):
        _, states, known, _ = self.plays({"staging": ("build",)})
        self.assertEqual((states[-1], known.broken, known.ends[1].is_of_main), (("build", "failure"), None, False))

    def test_without_the_setting_a_failure_is_told_at_once(self):
        begun, states, _, _ = self.plays({"staging": ("build",)}, retest=False)
        self.assertEqual((begun[0], states[0]), (("staging", "build"), ("build", "failure")))
        self.assertNotIn(MAIN, [branch for branch, _ in begun])

    def test_a_check_without_a_command_comes_to_no_verdict(self):
        world = self.world("gone")
        host = host_in(world)
        known = Play(*STAGED, (FAILED,)).known
        host.known, host.record = known, lambda fact: known.learn(9, 0, fact)
        host.ports.owner.settings = SimpleNamespace(checks={}, parallel=False)
        host.check_base(base_test(known))
        self.assertEqual([json.loads(it.line)["state"] for it in known.waiting], ["failure"])
        self.assertIsNone(known.broken)
        host.ports.journal.close()


class EarlierTests(unittest.TestCase):
    def test_without_a_batch_nothing_is_doubted(self):
        self.assertEqual(Play(*ORDERED[:4], (FAILED,)).known.doubts, {})
        self.assertEqual(Play(*ORDERED[:4], (FAILS,)).known.broken, None)


if __name__ == "__main__":
    unittest.main()
