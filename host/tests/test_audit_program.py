"""The audit reads comments and approvals as the bot does: both are told the same, drawn at random from a fixed seed. GATE_PROGRAM names the
built program; without it this is skipped."""
import json
import os
import random
import sys
import unittest
from pathlib import Path

sys.path.insert(0, str(Path(__file__).resolve().parent.parent))

from gate_host.audit.entries import Fact, Journal, Row, entries_of  # noqa: E402
from gate_host.audit.replay import answers_of  # noqa: E402
from gate_host.audit.story import Story  # noqa: E402

CHANGES = 120
LINES = ["bors r+", "bors r=rosa,vera", "bors retry", "bors r-", "bors try", "bors r+ p=3", "bors merge=a, b p=-1"]
PARTS = [
    "bors", "BORS", "bors ", "bors:", " ", "  ", "r+", "r=", "r-", "merge", "merge=", "merge-", "p=", "p=5", "p=-7", "p=12345", "1", "-",
    "rosa", "@milo", "Vera", ",", ", ", "try", "try ", "try-", "retry", "ping", "delegate+", "d=", "d-", "\t", "\r", "\n", "\u00e9",
    "\u00a0", "\u017f", "+", "=", "a" * 64, "a" * 65, "[x]", ".",
]


def some_text(dice):
    """Lines that are commands, and texts that nearly are."""
    kind = dice.random()
    if kind < 0.5:
        return "\n".join(dice.choice(LINES) for _ in range(dice.randrange(1, 5)))
    return ("bors " if kind < 0.8 else "") + "".join(dice.choice(PARTS) for _ in range(dice.randrange(1, 6)))


def something(dice, change):
    """What happens to a change: mostly a comment."""
    kind = dice.random()
    head = dice.choice("ab") * 40
    if kind < 0.15:
        return {"event": "pushed", "change": change, "head": head}
    if kind < 0.2:
        return {"event": "closed", "change": change}
    if kind < 0.25:
        return {"event": "opened", "change": change, "author": "otto", "head": head}
    return {"event": "comment", "change": change, "person": dice.choice(["rosa", "rosa", "@Rosa", "eve"]), "text": some_text(dice)}


class ProgramTests(unittest.TestCase):
    @unittest.skipUnless("GATE_PROGRAM" in os.environ, "GATE_PROGRAM names no built program")
    def test_approvals_are_those_of_the_bot(self):
        """Before a change is closed, `r-` is done if and only if it is approved."""
        dice = random.Random(11)
        told = [
            {"event": "role", "person": "rosa", "role": "reviewer"}, {"event": "base", "commit": "0" * 40},
            {"event": "settings", "text": 'status = ["ci"]\n'},
        ]
        probes = {}
        for change in range(1, CHANGES + 1):
            told.append({"event": "opened", "change": change, "author": "otto", "head": "a" * 40})
            told += [something(dice, change) for _ in range(dice.randrange(1, 4))]
            probes[len(told)] = change
            told += [{"event": "comment", "change": change, "person": "rosa", "text": "bors r-"}, {"event": "closed", "change": change}]
        lines = [json.dumps({"id": f"x-{number}", **it}) for number, it in enumerate(told)]
        answers = answers_of(os.environ["GATE_PROGRAM"], lines)
        rows = [Row(number + 1, 1, f"x-{number}", line, answer) for number, (line, answer) in enumerate(zip(lines, answers))]
        entries, unread = entries_of(Journal([Fact(1, 0, "Ticked", "{}")], rows))
        self.assertEqual(unread, [])
        story, approved = Story(), 0
        for place, entry in enumerate(entries):
            if place in probes:
                approved += entry.is_done
                self.assertEqual(probes[place] in story.approvals, entry.is_done, told[place - 4:place])
            story.follow(entry)
        self.assertEqual(story.findings, [])
        self.assertGreater(approved, CHANGES // 10)


if __name__ == "__main__":
    unittest.main()
