"""Tests of the bot as a child of the host."""
import os
import signal
import sys
import unittest
from pathlib import Path
from types import SimpleNamespace
from unittest import mock

sys.path.insert(0, str(Path(__file__).resolve().parent.parent))

from folders import InFolder  # noqa: E402
from gate_host.client import Bot, BotEnded, Guard, NoSuchJob  # noqa: E402
from gate_host.core.duties import Answered, Duties, ToMerge  # noqa: E402
from gate_host.core.orders import Unread  # noqa: E402


class ClientTests(InFolder):
    def program(self, text):
        path = self.room / "program"
        path.write_text(f"#!/bin/sh\n{text}\n", encoding="utf-8")
        path.chmod(0o755)
        return str(path)

    def test_an_answer_may_come_in_pieces(self):
        bot = Bot(self.program("read line; printf '[\"'; sleep 0.1; printf '%s\"]\\n' \"$line\"; cat"), self.room / "file")
        self.assertEqual(bot.hand_in("one"), '["one"]')
        self.assertEqual(bot.hand_in("two"), "two")
        bot.close()

    def test_a_guard_says_what_is_to_be_done(self):
        said = '{"answer":[ "é" ],"staging":{"do":"merge","batch":3},"trying":null}'
        guard = Guard(self.program(f"echo '{said}'; echo '{{\"error\":\"NotJson\"}}'; cat"), self.room / "file")
        self.addCleanup(guard.close)
        self.assertEqual(guard.hand_in("one"), Answered('[ "é" ]', Duties(ToMerge(3))))
        with self.assertRaisesRegex(Unread, "NotJson"):
            guard.hand_in("two")

    def test_by_which_words_it_is_started(self):
        file = self.room / "file"
        for kind, database, due in (
            (Bot, None, "run"), (Bot, file, f"run --db {file}"), (Guard, None, "guard"), (Guard, file, f"guard --db {file}"),
        ):
            bot = kind(self.program('read -r line; echo "$*"'), database)
            self.assertEqual(bot.line_after("one"), due)
            bot.close()

    def test_a_line_is_handed_in_whole(self):
        bot = Bot(self.program("exec cat"), self.room / "file")
        bot.seconds = 5
        self.addCleanup(bot.close)
        with mock.patch.object(bot, "given", SimpleNamespace(write=lambda part: os.write(bot.process.stdin.fileno(), part[:3]))):
            self.assertEqual(bot.hand_in("a longer line"), "a longer line")

    def test_how_a_bot_ends_is_told(self):
        for text, due in (("echo gate: Store >&2; exit 1", "gate: Store"), ("kill -9 $$", "status -9")):
            bot = Bot(self.program(text), self.room / "file")
            with self.assertRaisesRegex(BotEnded, due):
                bot.hand_in("one")
            bot.close()
        with self.assertRaisesRegex(BotEnded, "can't be started"):
            Bot(str(self.room / "none"), self.room / "file")

    def test_a_program_that_refuses_its_words_is_told_from_one_that_ends(self):
        """It has the status of wrong words, and has written no answer, whether or not it has read the line."""
        words = "echo \"error: unrecognized subcommand '$1'\" >&2"
        for text, is_refusal in (
            (f"{words}; exit 2", True), (f"read -r line; {words}; exit 2", True), ("exit 2", True), (f"{words}; exit 1", False),
            (f"{words}; kill -9 $$", False), (f"{words}; exit 0", False), ("read -r line; echo '[]'; exit 2", False),
            ("printf '['; exit 2", False), ("read -r line; printf '['; exit 2", False),
        ):
            for is_late in (False, True):
                guard = Guard(self.program(text), self.room / "file")
                if is_late and not text.startswith("read"):
                    guard.process.wait(10)
                with self.assertRaises(BotEnded, msg=text) as raised:
                    guard.line_after("one")
                    guard.line_after("two")
                guard.close()
                self.assertEqual(isinstance(raised.exception, NoSuchJob), is_refusal, (text, is_late))
        self.assertEqual(str(self.ended_with(f"{words}; exit 2")), "error: unrecognized subcommand 'guard'")
        self.assertEqual(str(self.ended_with("exit 2")), "the bot ended with status 2")

    def ended_with(self, text):
        guard = Guard(self.program(text), self.room / "file")
        with self.assertRaises(NoSuchJob) as raised:
            guard.line_after("one")
        guard.close()
        return raised.exception

    def test_a_silent_bot_is_ended(self):
        bot = Bot(self.program("exec sleep 60"), self.room / "file")
        bot.seconds = 0.1
        with self.assertRaisesRegex(BotEnded, "no answer for"):
            bot.hand_in("one")
        bot.close()
        self.assertEqual(bot.process.returncode, -signal.SIGKILL)


if __name__ == "__main__":
    unittest.main()
