"""Tests of the commands in a comment: the examples of docs/formats.md, and more of its grammar."""
import sys
import unittest
from pathlib import Path

sys.path.insert(0, str(Path(__file__).resolve().parent.parent))

from gate_host.core.commands import commands_in  # noqa: E402

ROWS = """\
BORS ping => PING
bors:r+ => APPROVE
bors r-~ => WITHDRAW
bors r+^ => APPROVE
bors r+^^ => UNKNOWN
~bors r+ =>
bors =>
bors~ => UNKNOWN
bors: => UNKNOWN
bors\tping =>
bors \tping => UNKNOWN
bors R+ => UNKNOWN
bors r+, please => UNKNOWN
borsalino =>
bors merge=Rosa, @milo,rosa => APPROVE_FOR rosa milo
bors r+   p=12 => PRIORITY 12, APPROVE
bors r+p=12 => UNKNOWN
bors r=rosa, milo p=-7 => PRIORITY -7, APPROVE_FOR rosa milo
bors r= p=5 => UNKNOWN
bors r=rosa p=12345 => UNKNOWN
bors r+ p=5 p=6 => UNKNOWN
bors p=007 => PRIORITY 7
bors p=-0 => PRIORITY 0
bors p= 5 => UNKNOWN
bors p=+5 => UNKNOWN
bors p=00007 => UNKNOWN
bors: try on arm p=5 => TRY
bors tryon => UNKNOWN
bors delegate=vera, => UNKNOWN
bors retry now => UNKNOWN
bors merge => APPROVE
bors merge- => WITHDRAW
bors merge p=3 => PRIORITY 3, APPROVE
bors merge=@Rosa p=-1 => PRIORITY -1, APPROVE_FOR rosa
bors r=a  p=5~ => PRIORITY 5, APPROVE_FOR a
bors try => TRY
bors try- => TRY_CANCEL
bors try- now => UNKNOWN
bors delegate+ => DELEGATE_AUTHOR
bors d+ => DELEGATE_AUTHOR
bors delegate- => DELEGATE_NONE
bors d- => DELEGATE_NONE
bors d=@@a => UNKNOWN
bors d=a,,b => UNKNOWN
bors d= => UNKNOWN
bors delegate=vera, milo => DELEGATE_TO vera milo
bors  retry => RETRY
bors:ping => PING
"""


def shown(command):
    words = [command.kind.name, *command.people]
    return " ".join([*words, str(command.number)] if command.kind.name == "PRIORITY" else words)


class CommandTests(unittest.TestCase):
    def test_lines(self):
        for row in ROWS.splitlines():
            line, _, due = row.partition(" =>")
            line = line.replace("~", " ").replace("^", "\r")
            self.assertEqual(", ".join(map(shown, commands_in(line))), due.strip(), repr(line))

    def test_names_have_64_bytes_at_the_most(self):
        self.assertEqual(shown(commands_in(f"bors d=@{'a' * 64}")[0]), f"DELEGATE_TO {'a' * 64}")
        for name in ("a" * 65, "ä", "a b", "a\u00a0", "a/b"):
            self.assertEqual(shown(commands_in(f"bors r={name}")[0]), "UNKNOWN", name)

    def test_a_long_s_is_no_s(self):
        self.assertEqual(commands_in("bor\u017f r+\nBORS ping\n\u212aors"), commands_in("bors ping"))

    def test_a_comment_gives_the_commands_of_its_lines(self):
        found = commands_in("Looks good.\nbors r+ p=2\nbors d+\nbors: dance")
        self.assertEqual([*map(shown, found)], ["PRIORITY 2", "APPROVE", "DELEGATE_AUTHOR", "UNKNOWN"])


if __name__ == "__main__":
    unittest.main()
