"""`gate-host what-if` on a repository: what it reads, that it writes nothing, and what it refuses."""
import json
import shutil
import stat
import sys
import unittest
from contextlib import closing
from pathlib import Path

sys.path.insert(0, str(Path(__file__).resolve().parent.parent))

from folders import InRepository  # noqa: E402
from stand_in import PROGRAM, is_built  # noqa: E402
from supposed import SETTINGS, Days  # noqa: E402
from test_audit_files import write_journal  # noqa: E402


class CommandTests(InRepository):
    def suppose(self, *words):
        return self.run_host("what-if", *words, "--repository", str(self.path))

    def refused(self, why, *words, status=1):
        ran = self.suppose(*words)
        self.assertEqual((ran.returncode, ran.stdout), (status, ""), ran.stderr)
        self.assertIn(why, ran.stderr)

    def file(self, text):
        path = self.room / "bors.toml"
        path.write_text(text, encoding="utf-8")
        return str(path)

    def files(self):
        """All files of the repository with what stands in them."""
        return {str(path): path.read_bytes() for path in sorted(self.path.rglob("*")) if stat.S_ISREG(path.lstat().st_mode)}

    def test_bad_words(self):
        self.set_up()
        for words in ((), ("bors.toml",), ("--settings",), ("--settings", "x", "7"), ("--settings", "x", "--at", "7")):
            self.refused("usage: gate-host", *words, status=2)

    def test_what_cannot_be_read(self):
        given = self.file(SETTINGS)
        self.refused("has no folder gate", "--settings", given)
        self.set_up()
        self.refused("none can't be read", "--settings", "none")
        self.refused("has more than 10000 bytes", "--settings", self.file(SETTINGS + "#" * 10000))
        self.refused("there is no journal", "--settings", self.file(SETTINGS))
        self.program.unlink()
        self.refused("there is no program of the bot at", "--settings", given)

    @is_built
    def test_an_answer_and_nothing_written(self):
        self.set_up()
        shutil.copy(PROGRAM, self.program)
        days = Days(changes=(1,))
        days.approve(1)
        days.passes(1, 1010, 1110)
        with closing(write_journal(self.places.records / "journal.db", days.journal())):
            before = self.files()
            ran = self.suppose("--settings", self.file(SETTINGS))
            self.assertEqual((ran.returncode, ran.stderr, ran.stdout.splitlines()[-1]), (0, "", "No change lands at another time."))
            document = json.loads(self.suppose("--settings", self.file('status = ["x"]\n'), "--json", "--since", "1970-01-01").stdout)
            self.assertEqual((document["unseen"], document["after"]["landed"]), (["x"], 1))
            self.refused("the bot refuses these settings: it is no TOML", "--settings", self.file("status = [\n"))
            self.refused("noon is neither a date", "--settings", self.file(SETTINGS), "--since", "noon")
            self.assertEqual(self.files(), before)


if __name__ == "__main__":
    unittest.main()
