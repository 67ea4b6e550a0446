"""Tests of the bot that is kept running, with a program that stands in for it."""
import json
import sys
import tempfile
import unittest
from pathlib import Path
from unittest import mock

sys.path.insert(0, str(Path(__file__).resolve().parent.parent))

from gate_host import kept_bot  # noqa: E402
from gate_host.core.duties import Duties, ToMerge  # noqa: E402
from gate_host.core.facts import Ticked  # noqa: E402
from gate_host.faults import Trouble  # noqa: E402
from gate_host.journal import Journal  # noqa: E402
from gate_host.kept_bot import KeptBot  # noqa: E402
from gate_host.places import Places  # noqa: E402

# Answers each line by how many it has had, with a duty of that number; writes down what it gets, and ends after so many as a file says.
PROGRAM = """\
#!{python}
import pathlib, sys
room = pathlib.Path({room!r})
for number, line in enumerate(sys.stdin, 1):
    with open(room / "got", "a") as got:
        got.write(line)
    if number > int((room / "most").read_text()):
        sys.exit("no more")
    print((room / "answer").read_text().format(number), flush=True)
"""


ANSWER = '[{"verdict":"done","orders":[],"n":%s}]'


class KeptBotTests(unittest.TestCase):
    def setUp(self):
        room = tempfile.TemporaryDirectory()
        self.addCleanup(room.cleanup)
        self.room = Path(room.name)
        self.places = Places(self.room)
        self.places.records.mkdir(parents=True)
        self.journal = Journal(self.places.records / "journal.db")
        self.addCleanup(self.journal.close)
        self.program = self.room / "program"
        self.program.write_text(PROGRAM.format(python=sys.executable, room=str(self.room)), encoding="utf-8")
        self.program.chmod(0o755)
        self.ending = False
        answer = '{{"answer":[{{"verdict":"done","orders":[],"n":{0}}}],"staging":{{"do":"merge","batch":{0}}},"trying":null}}'
        for name, text in (("most", "99"), ("answer", answer), ("got", "")):
            (self.room / name).write_text(text, encoding="utf-8")
        for patched in (mock.patch.object(kept_bot, "complain"), mock.patch("time.sleep")):
            patched.start()
            self.addCleanup(patched.stop)

    def bot(self, is_all_again=False):
        bot = KeptBot(self.places, self.journal, lambda: str(self.program), is_all_again, lambda: self.ending)
        self.addCleanup(bot.close)
        return bot

    def got(self):
        return (self.room / "got").read_text(encoding="utf-8").splitlines()

    def keep(self, *answers):
        known = self.journal.known()
        for number, answer in enumerate(answers):
            self.journal.record(known, 0, Ticked(number))
            self.journal.keep_answer(known, 0, answer)

    def test_it_is_started_again_whenever_it_has_ended(self):
        (self.room / "most").write_text("2", encoding="utf-8")
        bot = self.bot()
        self.assertEqual([json.loads(bot.hand_in(line))[0]["n"] for line in ("a", "b", "c")], [1, 2, 1])
        self.assertEqual(self.got(), ["a", "b", "c", "c"])
        kept_bot.complain.assert_called_once_with("no more; the bot is started again")

    def test_it_gives_up_in_the_end(self):
        (self.room / "most").write_text("0", encoding="utf-8")
        with self.assertRaisesRegex(Trouble, "however often it is started"):
            self.bot().hand_in("a")
        self.assertEqual(len(self.got()), kept_bot.STARTS)

    def test_a_host_that_ends_waits_for_no_bot(self):
        (self.room / "most").write_text("0", encoding="utf-8")
        self.ending = True
        with self.assertRaisesRegex(Trouble, "however often it is started"):
            self.bot().hand_in("a")
        self.assertEqual(len(self.got()), 1)

    def test_a_program_without_the_job_is_told_at_once_and_not_started_again(self):
        """As one of before is, also while the last delivery is handed in again."""
        said = "error: unrecognized subcommand 'guard'\n\nUsage: gate run"
        self.program.write_text(f'#!/bin/sh\necho "$1" >> {self.room}/got\necho "{said}" >&2\nexit 2\n', encoding="utf-8")
        due = f"{self.program} has no `gate guard`, so it is older than this host; .*{self.places.settings}. It says: {said[:38]}$"
        with self.assertRaisesRegex(Trouble, due):
            self.bot().hand_in("a")
        self.keep(ANSWER % 1)
        with self.assertRaisesRegex(Trouble, due):
            self.bot().duties()
        self.assertEqual(self.got(), ["guard"] * 2)

    def test_a_program_that_ends_so_after_an_answer_is_started_again(self):
        self.program.write_text(f'#!/bin/sh\nread -r line\necho "$1" >> {self.room}/got\necho nothing\nexit 2\n', encoding="utf-8")
        with self.assertRaisesRegex(Trouble, "isn't the one of this host: .*nothing"):
            self.bot().hand_in("a")
        self.program.write_text(f'#!/bin/sh\necho "$1" >> {self.room}/got\nprintf "["\nexit 2\n', encoding="utf-8")
        with self.assertRaisesRegex(Trouble, "however often it is started"):
            self.bot().hand_in("a")
        self.assertEqual(len(self.got()), 1 + kept_bot.STARTS)

    def test_what_is_no_answer_is_refused(self):
        (self.room / "answer").write_text('{{"error":"NotJson"}}', encoding="utf-8")
        with self.assertRaisesRegex(Trouble, "takes this for no delivery.*NotJson.*: a"):
            self.bot().hand_in("a")

    def test_an_answer_without_what_is_to_be_done_is_refused(self):
        """As the job `run` gives it."""
        (self.room / "answer").write_text("[]", encoding="utf-8")
        with self.assertRaisesRegex(Trouble, "isn't the one of this host"):
            self.bot().hand_in("a")

    def test_it_gets_all_again_if_its_file_lacks_answers(self):
        self.keep(ANSWER % 1, ANSWER % 2)
        self.assertEqual(json.loads(self.bot().hand_in("a"))[0]["n"], 3)
        self.assertEqual([line[:12] for line in self.got()], ['{"id": "tick', '{"id": "tick', 'a'])
        kept_bot.complain.assert_called_once()

    def test_one_that_answers_another_way_than_before_is_refused(self):
        self.keep(ANSWER % 7)
        with self.assertRaisesRegex(Trouble, "another way than before to"):
            self.bot().hand_in("a")

    def test_it_says_what_is_to_be_done_after_each_answer(self):
        bot = self.bot()
        for number, line in enumerate(("a", "b"), 1):
            self.assertEqual(bot.hand_in(line), ANSWER % number)
            self.assertEqual(bot.duties(), Duties(ToMerge(number)))
        self.assertEqual(self.got(), ["a", "b"])

    def test_a_new_bot_says_what_is_to_be_done_when_it_gets_the_last_delivery_again(self):
        """Its file has all answers, so it gets no other one."""
        self.keep(ANSWER % 5, ANSWER % 1)
        with mock.patch.object(kept_bot, "lacks_answers", lambda *_: False):
            bot = self.bot()
            self.assertEqual((bot.duties(), bot.duties()), (Duties(ToMerge(1)), Duties(ToMerge(1))))
            self.assertEqual(([json.loads(line)["now"] for line in self.got()], bot.starts), ([1], 1))
            # So it is if it has ended meanwhile, and there is a delivery for it.
            bot.bot.process.kill()
            self.assertEqual(json.loads(bot.hand_in("a"))[0]["n"], 2)
        self.assertEqual((self.got()[2:], bot.duties(), bot.starts), (["a"], Duties(ToMerge(2)), 2))

    def test_a_new_bot_that_answers_the_last_delivery_another_way_is_refused(self):
        self.keep(ANSWER % 1, ANSWER % 7)
        with mock.patch.object(kept_bot, "lacks_answers", lambda *_: False):
            with self.assertRaisesRegex(Trouble, "another way than before to"):
                self.bot().duties()

    def test_all_again_says_what_is_to_be_done_at_the_end(self):
        self.keep(ANSWER % 1, ANSWER % 2)
        self.assertEqual(self.bot(is_all_again=True).duties(), Duties(ToMerge(2)))

    def test_nothing_is_to_be_done_before_anything_was_handed_in(self):
        """The bot isn't started for that, since with an empty journal it is to have no records."""
        bot = self.bot()
        self.assertEqual((bot.duties(), bot.starts, self.places.bot.exists()), (Duties(), 0, False))

    def test_a_program_that_is_not_there(self):
        self.program.unlink()
        with self.assertRaisesRegex(Trouble, "there is no program"):
            self.bot().must_belong_to_journal()

    def test_records_of_a_bot_without_a_journal(self):
        self.places.bot.write_text("x", encoding="utf-8")
        with self.assertRaisesRegex(Trouble, "the journal is new, and the bot has records"):
            self.bot().must_belong_to_journal()


if __name__ == "__main__":
    unittest.main()
