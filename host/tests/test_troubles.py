"""Tests of what the owner is told of troubles."""
import sys
import unittest
from contextlib import redirect_stderr
from io import StringIO
from pathlib import Path

sys.path.insert(0, str(Path(__file__).resolve().parent.parent))

from gate_host.troubles import Troubles  # noqa: E402


class TroubleTests(unittest.TestCase):
    def test_each_is_complained_of_once_and_stays_while_it_lasts(self):
        troubles, said = Troubles(), StringIO()
        with redirect_stderr(said):
            for about, text in (("git", "a"), ("git", "a"), ("names", "b"), ("git", "c"), ("names", "")):
                troubles.put(about, text)
        self.assertEqual(said.getvalue(), "gate-host: a\ngate-host: b\ngate-host: c\n")
        self.assertEqual((troubles.texts(), troubles.is_news), (["c"], True))
        troubles.is_news = False
        troubles.put("git", "c")
        troubles.end("names")
        self.assertFalse(troubles.is_news)
        troubles.end("git")
        self.assertEqual((troubles.texts(), troubles.is_news), ([], True))


if __name__ == "__main__":
    unittest.main()
