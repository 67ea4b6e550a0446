"""Tests of what is said of a text of the bot's settings. What the program says stands in for it here."""
import sys
import unittest
from pathlib import Path
from unittest import mock

sys.path.insert(0, str(Path(__file__).resolve().parent.parent))

from gate_host import bot_settings  # noqa: E402
from gate_host.bot_settings import read_settings, unknown_keys  # noqa: E402
from gate_host.ports import Reading  # noqa: E402
from gate_host.required import Wanted  # noqa: E402


def said_by_program(program, text, room):
    """As the program says it of the texts below: what is asked for, or the number of the refusal."""
    if "[unclosed" in text:
        return 1
    if "status =" not in text.replace("pr_status", ""):
        return 2
    is_bad = any(it in text for it in ('max_batch_size = "8"', "timeout_sec = 60.0", 'status = ["a", "a"]'))
    return 3 if is_bad else Wanted(["build"], ["format"], 2, 60)


class ReadingTests(unittest.TestCase):
    def setUp(self):
        patched = mock.patch.object(bot_settings, "wanted_of", said_by_program)
        patched.start()
        self.addCleanup(patched.stop)

    def refusal(self, text):
        return read_settings("gate", text).refusal

    def test_a_text_that_is_taken(self):
        self.assertEqual(read_settings("gate", 'status = ["build"]\n'), Reading(("build",), ("format",), 2, timeout=60))

    def test_a_refusal_names_the_key_with_its_value(self):
        size = 'max_batch_size = "8" isn\'t taken; it has to be a whole number from 1 to 1000'
        for text, due in (
            ('status = ["build"]\nmax_batch_size = "8"\n', size), ('max_batch_size = "8"\nstatus = ["build"]', size),
            ('status = [\n  "build",\n]\n# of a minute\ntimeout_sec = 60.0\nteam = 1',
             "timeout_sec = 60.0 isn't taken; it has to be a whole number from 1 to 2147483647"),
            ('status = ["a", "a"]', 'status = ["a", "a"] isn\'t taken; it has to be 1 to 64 different names of statuses, as in ["build"]'),
            ("timeout_sec = 5", "it has no key status, which names what has to succeed"),
        ):
            self.assertEqual(self.refusal(text), due)
        self.assertRegex(self.refusal("status = [unclosed"), r"^it is no TOML")

    def test_keys_that_mean_nothing(self):
        for text, due in (
            ('status = ["a"]\nmax_batchsize = 8', [("max_batchsize", "max_batch_size")]), ("statuses = []", [("statuses", "status")]),
            ('"timeout-sec" = 5', [("timeout-sec", "timeout_sec")]), ("delete_merged_branches = true", []), ("team = 'x'", [("team", "")]),
            # What stands below a header is of another table, and a text in a list is no key.
            ("[committer]\nname = 'x'", []), ('status = [\n  "a=b",\n  "c"\n]', []), ("# max = 5", []),
        ):
            self.assertEqual(unknown_keys(text), due, text)
        self.assertEqual(
            read_settings("gate", 'status = ["build"]\nmax_batchsize = 8\nteam = 1').remarks,
            ("max_batchsize is no key of the bot's, which passes it over; did you mean max_batch_size?",
             "team is no key of the bot's, which passes it over"),
        )


if __name__ == "__main__":
    unittest.main()
