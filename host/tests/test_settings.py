"""Tests of the settings and of the roles."""
import re
import sys
import unittest
from pathlib import Path

sys.path.insert(0, str(Path(__file__).resolve().parent.parent))

from gate_host.faults import Trouble  # noqa: E402
from gate_host.settings import FIRST_REPORTERS, FIRST_SETTINGS, reporters_in, roles_in, settings_in  # noqa: E402

TEXT = FIRST_SETTINGS.format(main="main", staging="staging", trying="trying", program="/gate", may_push="ines", checks="build = true\n")


def changed(**values):
    """The settings of `init` with other values."""
    text = TEXT
    for name, value in values.items():
        text, count = re.subn(f"(?m)^{name} =.*$", f"{name} = {value}", text)
        if count != 1:
            raise ValueError(f"{name} is no setting of `init`")
    return settings_in(text)


class SettingsTests(unittest.TestCase):
    START = "[host]\nmain = main\nprogram = /gate\n"

    def test_what_is_read(self):
        checks = "[checks]\nBuild: x86 = make -j2 A=b # 1%\nlint = true\n"
        settings = settings_in(self.START + "tick_seconds = 0.5\nmay_push = Ines otto\n" + checks)
        self.assertEqual(settings.checks, {"Build: x86": "make -j2 A=b # 1%", "lint": "true"})
        self.assertEqual((settings.tick_seconds, settings.look_seconds, settings.check_seconds), (0.5, 1.0, 3600.0))
        self.assertEqual(settings.may_push, {"ines", "otto"})

    def test_what_is_refused(self):
        for text in (
            "", "[checks]\na = b\n", "[host]\nmain = main\n", "main = main\n", self.START + "[host]\n", self.START + "ticks = 1\n",
            self.START + "tick_seconds = 0\n", self.START + "tick_seconds = soon\n", self.START + "look_seconds = nan\n",
            self.START + "[checks]\na =\n", self.START + f"[checks]\n{'x' * 256} = a\n",
        ):
            with self.assertRaises(Trouble, msg=text):
                settings_in(text)

    def test_roles(self):
        text = "# all\n@Rosa reviewer # since May\n\nmilo member\notto nobody\n"
        self.assertEqual(roles_in(text), {"rosa": "reviewer", "milo": "member", "otto": "nobody"})
        for text in ("rosa", "rosa boss", "rosa reviewer now", "ro/sa member"):
            with self.assertRaises(Trouble, msg=text):
                roles_in(text)

    def test_reporters(self):
        text = FIRST_REPORTERS.format(lines="@Ci tests on arm\n\n  bot  build\nci build\nci #1\n")
        self.assertEqual(reporters_in(text), {"tests on arm": {"ci"}, "build": {"bot", "ci"}, "#1": {"ci"}})
        for text in ("ci", "c/i build", "ci a\tb", f"ci {'x' * 256}"):
            with self.assertRaisesRegex(Trouble, "line 1", msg=text):
                reporters_in(text)

    def test_after_a_landing(self):
        self.assertEqual((settings_in(TEXT).after_landing, settings_in(TEXT).delete_branches), ("", False))
        self.assertEqual(settings_in(TEXT.replace("#after_landing", "after_landing")).after_landing, "hooks/post-receive")
        self.assertTrue(changed(delete_branches="yes").delete_branches)

    def test_what_init_writes_is_what_counts_without_a_line(self):
        written = settings_in(TEXT)
        self.assertEqual(written, settings_in(self.START + "may_push = ines\n[checks]\nbuild = true\n"))
        self.assertEqual((written.retry_seconds, written.parallel), (5.0, False))

    def test_checks_side_by_side_and_pauses(self):
        self.assertEqual([changed(parallel=value).parallel for value in ("yes", "no")], [True, False])
        self.assertEqual(changed(retry_seconds="0.2").retry_seconds, 0.2)

    def test_settings_that_are_refused(self):
        for values in (
            {"parallel": "2"}, {"parallel": ""}, {"retry_seconds": "0"}, {"retry_seconds": "soon"}, {"retry_seconds": ""},
            {"sandbox": "maybe"}, {"sandbox_network": "1"}, {"sandbox_reads": "x"}, {"staging": "main"}, {"staging": "trying"},
            {"staging": "main/x"}, {"main": "staging/x"}, {"trying": "change"}, {"trying": "change/1"}, {"staging": "a..b"},
            {"trying": "-x"}, {"delete_branches": "1"},
        ):
            with self.assertRaises(Trouble, msg=values):
                changed(**values)
        kept = changed(staging="gate/tested", trying="gate/tried", main="release/1.0", sandbox_reads="/a /b")
        self.assertEqual((kept.staging, kept.trying, kept.main), ("gate/tested", "gate/tried", "release/1.0"))
        self.assertEqual(kept.sandbox_reads, ("/a", "/b"))


if __name__ == "__main__":
    unittest.main()
