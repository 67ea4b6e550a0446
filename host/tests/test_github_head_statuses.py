"""Tests of the status of the host's own on heads, over values: each is set when a change stands another way, and once."""
import tempfile
import unittest
from pathlib import Path
from unittest import mock

from playing import B, BEFORE, C, DONE, LANDED, STAGED, Play, with_orders
from gate_host.core.facts import Closed, Opened, Pushed, Said
from gate_host.core.head_status import Place
from gate_host.journal import Journal

try:
    import httpx
except ImportError:
    httpx = None

D, E = "d" * 40, "e" * 40
PUSHED = (Pushed(7, D), with_orders({"order": "notice", "change": 7, "why": "Pushed"}))
WAITS = {7: Place(1, "waiting", 1)}


class Died(BaseException):
    """The host is dead."""


class Queue:
    """The queue as a test wants it."""

    def __init__(self):
        self.places, self.is_current = {}, True

    def places_in_queue(self):
        return self.places


class Api:
    """A GitHub that keeps statuses, and refuses the next ones as a test wants it."""

    not_before = time = 0.0

    def __init__(self):
        self.posted, self.refusals = [], []

    def now(self):
        return self.time

    def post(self, path, body):
        from gate_host.github.api import Later, Refused
        if self.refusals:
            status = self.refusals.pop(0)
            raise Refused(status, "no") if status else Later("not now")
        self.posted.append((path, body))


@unittest.skipIf(httpx is None, "httpx isn't installed")
class HeadStatusTests(unittest.TestCase):
    def setUp(self):
        room = tempfile.TemporaryDirectory()
        self.addCleanup(room.cleanup)
        self.journal = Journal(Path(room.name) / "journal.db")
        self.addCleanup(self.journal.close)
        self.api, self.queue = Api(), Queue()

    def begin(self, *steps, name="gate", own=""):
        from gate_host.github.head_statuses import HeadStatuses
        self.known = Play(*steps).known
        self.statuses = HeadStatuses(self.known, self.queue, self.journal, self.api, "/repos/o/r", "https://hub/o/r/commit/", name, own)
        return self.statuses

    def posted(self):
        """What was posted since the last time: of which commit, the state and the words."""
        found = [(path.rpartition("/")[2], body["state"], body["description"]) for path, body in self.api.posted]
        self.api.posted.clear()
        return found

    def test_each_is_set_once_also_by_the_next_host(self):
        self.queue.places = WAITS
        statuses = self.begin(*BEFORE)
        self.assertTrue(statuses.is_behind)
        statuses.post_some()
        self.assertEqual(self.api.posted, [(f"/repos/o/r/statuses/{B}", {
            "context": "gate", "state": "pending", "description": "waiting: place 1 of the queue, in batch 1"})])
        self.posted()
        for statuses in (statuses, self.begin(*BEFORE)):
            statuses.note([7])
            statuses.post_some()
            self.assertEqual((self.posted(), statuses.is_behind), ([], False))

    def test_a_change_on_its_way(self):
        self.queue.places = WAITS
        self.begin(*BEFORE).post_some()
        self.queue.places = {7: Place(1, "staged", 1)}
        self.begin(*STAGED).post_some()
        self.assertEqual(self.api.posted[-1][1]["target_url"], f"https://hub/o/r/commit/{C}")
        self.queue.places = {}
        self.begin(*LANDED).post_some()
        self.assertEqual([state for _, state, _ in self.posted()], ["pending", "pending", "success"])

    def test_each_leads_to_the_page_of_its_change_if_there_is_one(self):
        self.queue.places = WAITS
        self.begin(*BEFORE, own="https://queue.test").post_some()
        self.queue.places = {}
        self.begin(*LANDED, own="https://queue.test").post_some()
        self.assertEqual([body["target_url"] for _, body in self.api.posted], ["https://queue.test/change-7.html"] * 2)

    def test_a_landing_of_which_a_host_that_died_has_said_nothing(self):
        self.begin(*BEFORE)
        self.begin(*LANDED).post_some()
        self.assertEqual(self.posted(), [(B, "success", f"landed as {C[:7]}, with batch 1")])

    def test_what_landed_before_statuses_were_set_gets_none(self):
        self.begin(*LANDED, name="")
        for _ in range(2):
            self.begin(*LANDED).post_some()
        self.assertEqual(self.posted(), [])

    def test_the_head_of_before_waits_no_more(self):
        self.queue.places = WAITS
        self.begin(*BEFORE).post_some()
        self.posted()
        self.queue.places = {}
        self.begin(*BEFORE, PUSHED).post_some()
        self.assertEqual(self.posted(), [
            (B, "failure", "not landed: the change is at another head now"), (D, "failure", "not landed: it was pushed")])

    def test_places_alone_are_set_by_and_by(self):
        opened = [(Opened(change, "ines", E), DONE) for change in range(8, 12)]
        said = [(Said(f"n{change}", change, "rosa", "bors r+"), DONE) for change in range(8, 12)]
        statuses = self.begin(*BEFORE, *opened, *said)
        self.queue.places = {change: Place(change, "waiting", change - 6) for change in range(7, 12)}
        statuses.post_some()
        self.assertEqual((len(self.posted()), statuses.is_behind), (3, True))
        statuses.post_some()
        self.assertEqual((len(self.posted()), statuses.is_behind), (2, False))
        self.queue.places = {change: Place(change, "waiting", change - 7) for change in range(8, 12)}
        statuses.post_some()
        self.assertEqual((self.posted(), statuses.is_behind), ([(E, "pending", "waiting: place 1 of the queue, in batch 8")], False))
        statuses.post_some()
        self.assertEqual(self.posted(), [])
        self.api.time += 20
        self.assertTrue(statuses.is_behind)
        statuses.post_some()
        self.assertEqual(self.posted(), [(E, "pending", "waiting: place 2 of the queue, in batch 9")])

    def test_a_host_that_dies_while_it_sets_one(self):
        """The next one sets it again, or the one that is due by then, and has none wait that is there no more."""
        closed = (Closed(7), with_orders({"order": "notice", "change": 7, "why": "Closed"}))
        waits, ends = "waiting: place 1 of the queue, in batch 1", "not landed: it is no open change any more"
        for steps, places, due in ((BEFORE, WAITS, (B, "pending", waits)), ([*BEFORE, closed], {}, (B, "failure", ends))):
            self.queue.places = WAITS
            with self.journal.step():
                self.journal.database.execute("DELETE FROM marks")
            statuses = self.begin(*BEFORE)
            with mock.patch.object(self.api, "post", side_effect=Died), self.assertRaises(Died):
                statuses.post_some()
            self.queue.places = places
            statuses = self.begin(*steps)
            for _ in range(2):
                statuses.post_some()
            self.assertEqual(self.posted(), [due])
            self.assertEqual((self.begin(*steps).post_some(), self.posted()), (None, []))

    def test_nothing_is_set_by_an_old_queue_or_without_a_name(self):
        self.queue.places = WAITS
        self.queue.is_current = False
        statuses = self.begin(*BEFORE)
        statuses.post_some()
        self.assertEqual((self.posted(), statuses.is_behind), ([], False))
        self.queue.is_current = True
        statuses = self.begin(*BEFORE, name="")
        statuses.note([7])
        statuses.post_some()
        self.assertEqual((self.posted(), statuses.is_behind), ([], False))

    def test_what_is_refused_waits_and_what_can_not_be_is_left_out(self):
        from gate_host.faults import Unable
        self.queue.places = WAITS
        statuses = self.begin(*BEFORE)
        self.api.refusals = [403]
        for _ in range(2):
            with self.assertRaises(Unable):
                statuses.post_some()
            self.assertFalse(statuses.is_behind)
        self.api.time += 60
        self.api.refusals = [0]
        with self.assertRaises(Unable):
            statuses.post_some()
        statuses.post_some()
        self.assertEqual(len(self.posted()), 1)
        self.api.refusals = [422]
        self.queue.places = {7: Place(1, "ordered", 1)}
        statuses.post_some()
        self.assertEqual((self.posted(), self.api.refusals, statuses.is_behind), ([], [], False))


if __name__ == "__main__":
    unittest.main()
