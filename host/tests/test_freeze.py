"""Tests of a freeze: tables of facts, and a host in a world of values that dies at each place while the queue is frozen."""
import json
import unittest

from playing import (
    A, B, BEFORE, C, D, DENIED, DONE, LAND, NOTICE, ORDERED, STAGED, Play, stage, with_orders,
)
from test_loop import Died, InWorld, commit_of, host_in

from gate_host.audit.entries import Fact, Row
from gate_host.core.durations import Runs
from gate_host.core.facts import Ended, Frozen, Merged, Moved, Opened, Queued, Reported, RoleGiven, Staged, Thawed, Ticked
from gate_host.core.freeze import Freeze
from gate_host.core.known import Known
from gate_host.core.notes import Freezing, Strange, Thawing, note_in
from gate_host.core.watching import freeze_of
from gate_host.core.orders import answer_in
from gate_host.explaining.events import events_of, freeze_in, freezes_in

FROZEN = Frozen("n7", "rosa", "a release.")
SAID = "The queue is frozen by rosa: a release. Nothing is staged and nothing lands until it is thawed; approvals go on."
SUCCESS = Ended(1, "build", "success", "it ended", "1-0-build")
TRIED = [*BEFORE, (Ticked(50), with_orders(stage(branch="trying"))), (Staged("tick-5.0"),)]


def waiting(known):
    return [(it["id"], it.get("state")) for it in map(json.loads, (delivery.line for delivery in known.waiting))]


class HeldTests(unittest.TestCase):
    def after(self, *steps):
        """What is known after a batch was staged, the queue frozen, and these facts."""
        return Play(*STAGED, (FROZEN,), *steps)

    def test_a_success_is_handed_in_when_the_freeze_ends(self):
        play = self.after((SUCCESS,))
        self.assertEqual(waiting(play.known), [])
        # It needn't run again, and people know that it has succeeded.
        self.assertEqual(play.known.results["staging"], {"build": "success"})
        self.assertIn("The check build of batch 1 (change 7) succeeded", play.told[-1].text)
        play.known.learn(10, 0, Thawed("n8", "rosa"))
        self.assertEqual((waiting(play.known), play.known.held, play.known.freeze), ([("status-9", "success")], {}, None))

    def test_what_comes_of_the_same_status_later_takes_its_place(self):
        for state, told in (("failure", [("status-10", "failure")]), ("pending", [("status-10", "pending")])):
            play = self.after((SUCCESS,))
            play.known.learn(10, 0, Reported("n9", "ci", C, "build", state, ""))
            self.assertEqual((waiting(play.known), play.known.held), (told, {}), state)

    def test_a_failure_is_handed_in_at_once(self):
        play = self.after()
        play.known.learn(9, 0, Ended(1, "build", "failure", "it ended", ""))
        self.assertEqual(waiting(play.known), [("status-9", "failure")])

    def test_a_report_is_held_as_well(self):
        play = self.after((Reported("n9", "ci", C, "lint", "success", ""),))
        play.known.learn(10, 0, Thawed("n8", "rosa"))
        self.assertEqual(waiting(play.known), [("status-9", "success")])

    def test_a_report_of_a_head_is_handed_in(self):
        play = self.after()
        play.known.learn(9, 0, Reported("n9", "ci", B, "lint", "success", ""))
        self.assertEqual(waiting(play.known), [("status-9", "success")])

    def test_what_is_held_of_a_batch_that_is_over_is_not_handed_in(self):
        over = with_orders({**NOTICE, "name": "lint"})
        play = self.after((SUCCESS,), (Ended(1, "lint", "failure", "it ended", ""), over))
        play.known.learn(11, 0, Thawed("n8", "rosa"))
        self.assertEqual((waiting(play.known), play.known.held), ([], {}))

    def test_what_is_held_is_handed_in_if_it_is_of_a_head_as_well(self):
        """Somebody has pushed the staged commit as a change. The batch is over, and the status counts for the change all the same."""
        over = with_orders({**NOTICE, "name": "lint"})
        play = self.after((Opened(9, "eve", C), DONE), (SUCCESS,), (Ended(1, "lint", "failure", "it ended", ""), over))
        play.known.learn(12, 0, Thawed("n8", "rosa"))
        self.assertEqual(waiting(play.known), [("status-10", "success")])

    def test_a_try_goes_on(self):
        play = Play(*TRIED[:-1], (Merged("tick-5.0", D),), (Staged("tick-5.0"), DONE), (FROZEN,))
        play.known.learn(9, 0, Ended(1, "build", "success", "it ended", ""))
        self.assertEqual(waiting(play.known), [("status-9", "success")])

    def test_the_landing_comes_after_the_freeze(self):
        play = self.after((SUCCESS,), (Thawed("n8", "rosa"), with_orders(LAND)), (Moved("status-9.0", "main"), DONE))
        self.assertEqual((play.known.phase(7), play.known.base), ("landed", C))

    def test_what_was_held_is_denied_if_the_bot_has_requeued_the_batch(self):
        play = self.after((SUCCESS,), (Thawed("n8", "rosa"), DENIED))
        self.assertEqual((play.known.phase(7), play.known.orders), ("open", {}))


class WordsTests(unittest.TestCase):
    def test_who_is_approved_is_told(self):
        self.assertEqual([tuple(it) for it in Play(*BEFORE, (FROZEN,)).told[-1:]], [(7, SAID)])
        told = Play(*BEFORE, (FROZEN,), (Queued(7, 1),)).told
        self.assertEqual(told[-1].text, f"It waits in batch 1. {SAID}")
        told = Play(*BEFORE, (FROZEN,), (Thawed("n8", "otto"),)).told
        self.assertEqual(tuple(told[-1]), (7, "The queue goes on: otto has ended the freeze."))
        self.assertEqual(Play(*BEFORE[:3], (FROZEN,)).told, [])

    def test_who_may(self):
        known = Play((RoleGiven("rosa", "reviewer"), DONE), (RoleGiven("otto", "member"), DONE)).known
        freezing = {name: Freezing("n1", name, "why") for name in ("rosa", "otto", "olga", "eve")}
        self.assertEqual(freeze_of(known, freezing["rosa"], "olga"), Frozen("n1", "rosa", "why"))
        self.assertEqual(freeze_of(known, freezing["olga"], "olga"), Frozen("n1", "olga", "why"))
        neither = "and is neither a reviewer nor the owner"
        for name in ("otto", "eve"):
            self.assertEqual(freeze_of(known, freezing[name], "olga"), f"{name} wants the queue frozen, {neither}")
        self.assertEqual(freeze_of(known, freezing["eve"], None), f"eve wants the queue frozen, {neither}")
        self.assertEqual(freeze_of(known, Thawing("n1", "rosa"), "olga"), "rosa wants the queue thawed, and it isn't frozen")
        known.freeze = Freeze("rosa", "why", 5)
        self.assertEqual(freeze_of(known, Thawing("n1", "rosa"), "olga"), Thawed("n1", "rosa"))
        self.assertEqual(freeze_of(known, Thawing("n1", "eve"), "olga"), f"eve wants the queue thawed, {neither}")

    def test_what_a_note_says(self):
        self.assertEqual(note_in("n1", "rosa", {"kind": "freeze", "reason": "a release"}), Freezing("n1", "rosa", "a release"))
        self.assertEqual(note_in("n1", "rosa", {"kind": "thaw"}), Thawing("n1", "rosa"))
        for reason in ("", "  ", "a\nb", "a\x1b[2J", "x" * 301, None, 5):
            self.assertEqual(note_in("n1", "rosa", {"kind": "freeze", "reason": reason}), Strange("n1", "rosa"), reason)

    def test_the_command_of_the_owner_is_told(self):
        known = Play(*BEFORE, (FROZEN,), (Thawed("n8", "rosa"),)).known
        self.assertEqual([(it.number, it.kind, it.fields) for it in known.events.last], [
            (1, "frozen", {"person": "rosa", "reason": "a release."}), (2, "thawed", {"person": "rosa"})])


class LoopTests(InWorld):
    """A host in a world in which rosa freezes the queue once changes are staged, and thaws it later."""

    def frozen_world(self, name):
        world = self.world(name)
        host = host_in(world)
        for _ in range(60):
            world.time += 10
            host.round()
            if host.known.tests.get("staging") and host.known.tests["staging"].batch == 3:
                return world, host
        raise AssertionError("changes 1 and 2 aren't staged")

    def freeze(self, world):
        world.notes["n-f"] = ("rosa", {"kind": "freeze", "reason": "a release"})

    def thaw(self, world):
        world.notes["n-t"] = ("rosa", {"kind": "thaw"})

    def test_nothing_is_staged_and_nothing_lands_while_it_is_frozen(self):
        world, host = self.frozen_world("frozen")
        self.freeze(world)
        host.round()
        before = [it["event"] for it in world.said]
        for _ in range(20):
            world.time += 10
            host.round()
        since = [it["event"] for it in world.said[len(before):]]
        self.assertEqual((world.moves, set(since) & {"tick", "base"}, host.known.held.keys()), ([], set(), {(3, "build"), (3, "lint")}))
        self.assertTrue(host.remarks()[0].startswith("frozen since "), host.remarks())
        self.thaw(world)
        host = self.play(world)
        self.assertEqual((world.moves, host.known.freeze), ([(A, commit_of([1, 2]))], None))
        host.ports.journal.close()

    def test_a_note_that_comes_again_freezes_nothing_again(self):
        world, host = self.frozen_world("again")
        for note in (self.freeze, self.thaw, self.freeze):
            note(world)
            host.round()
        self.assertIsNone(host.known.freeze)
        host.ports.journal.close()

    def test_a_host_that_dies_at_any_place_comes_to_the_same_end(self):
        """It dies at each place from the freeze on, up to the end. Meanwhile the queue is thawed."""
        due, places = None, 0
        while due is None or places < due[1]:
            world, host = self.frozen_world(f"dies-{places}")
            self.freeze(world)
            before, rounds = world.touches, 0
            world.last = before + places if places else None
            while rounds < 8:
                world.time, rounds = world.time + 10, rounds + 1
                host = self.lives(world, host)
            self.assertEqual(world.moves, [], f"dies at {places}")
            self.thaw(world)
            host.ports.journal.close()
            host = self.play(world)
            told = {change: [text for _, text in host.ports.journal.told(change)] for change in (1, 2, 3, 4)}
            found = world.moves, world.main, told
            due = due or (found, world.touches - before)
            self.assertEqual(found, due[0], f"dies at {places}")
            self.assertEqual(host.ports.journal.known(), host.known, f"dies at {places}")
            host.ports.journal.close()
            places += 1
        self.assertGreater(places, 25)

    def lives(self, world, host):
        """One round. A host that dies in it has another one in its place."""
        try:
            host.round()
            return host
        except Died:
            host.ports.journal.close()
            return host_in(world)


class KnownTests(unittest.TestCase):
    def test_nothing_is_frozen_at_first(self):
        self.assertEqual((Known().freeze, Known().held), (None, {}))

    def test_a_freeze_has_the_time_of_its_beginning_and_the_last_word(self):
        self.assertEqual(Play(*ORDERED, (FROZEN,)).known.freeze, Freeze("rosa", "a release.", 106))
        again = Frozen("n9", "otto", "another one")
        self.assertEqual(Play(*ORDERED, (FROZEN,), (again,)).known.freeze, Freeze("otto", "another one", 106))

    def test_the_time_of_a_freeze_says_nothing_of_a_batch(self):
        """The batch is ordered at 105 and staged at 107. Frozen from 108 to 1108, it lands 3 seconds later, as if nobody had frozen it."""
        known = Play(*STAGED, (FROZEN,), (SUCCESS,)).known
        known.learn(10, 1108, Thawed("n8", "rosa"))
        known.hear(answer_in(with_orders(LAND)))
        known.learn(11, 1111, Moved("status-9.0", "main"))
        known.hear(answer_in(DONE))
        run, = known.runs.last
        self.assertEqual((run.ordered, run.staged, run.ended, run.took), (105, 107, 111, 6))

    def test_the_time_stands_still_also_for_what_ended_meanwhile(self):
        runs = Runs()
        for at, due in ((50, 50), (60, 60)):
            self.assertEqual(runs.time_of(at), due)
        runs.freeze(60)
        runs.freeze(70)
        self.assertEqual((runs.time_of(65), runs.time_of(500)), (60, 60))
        runs.thaw(560)
        runs.thaw(580)
        self.assertEqual((runs.time_of(560), runs.time_of(570)), (60, 70))

    def test_what_is_explained_knows_of_it(self):
        """By the facts up to a moment: who froze it last, and since when."""
        def fact(number, at, kind):
            body = {"note": f"n{number}", "person": "rosa", **({"reason": f"why {number}"} if kind == "Frozen" else {})}
            return Fact(number, at, kind, json.dumps(body))
        facts = [fact(3, 50, "Frozen"), fact(5, 60, "Frozen"), fact(7, 90, "Thawed"), fact(8, 95, "Thawed"), fact(9, 100, "Frozen")]
        for count, freeze in (
            (0, None), (1, Freeze("rosa", "why 3", 50)), (2, Freeze("rosa", "why 5", 50)), (3, None), (4, None),
            (5, Freeze("rosa", "why 9", 100)),
        ):
            self.assertEqual(freeze_in(facts[:count]), freeze, count)
        self.assertEqual(freezes_in([fact(1, 5, "Ticked"), *facts]), facts)

    def test_what_was_held_is_told_with_its_own_time_and_words(self):
        ended = {"batch": 1, "name": "build", "state": "success", "said": "it ended", "output": ""}
        facts = [Fact(9, 40, "Ended", json.dumps(ended)), Fact(12, 900, "Thawed", json.dumps({"note": "n8", "person": "rosa"}))]
        line = json.dumps({"id": "status-9", "event": "status", "commit": C, "name": "build", "state": "success"})
        event, = events_of([Row(30, 12, "status-9", line, DONE)], facts)
        self.assertEqual((event.mark.at, event.said), (40, "it ended"))


if __name__ == "__main__":
    unittest.main()
