"""Tests of the bot for reports, with a program that stands in for it."""
import json
import os
import signal
import socket
import subprocess
import sys
import tempfile
import textwrap
import threading
import time
import unittest
from contextlib import suppress
from pathlib import Path
from unittest import mock

HOST = Path(__file__).resolve().parent.parent
sys.path.insert(0, str(HOST))

from gate_host import report_bot  # noqa: E402
from gate_host.report_bot import NoReport, ReportBot, end_with, free_port  # noqa: E402

from stand_in import EMPTY, PROGRAM, SECONDS, WithStandIn, is_built, is_there  # noqa: E402

# Has the system not end the program when the host ends.
WITHOUT_THE_SYSTEM = "report_bot.end_with = lambda host: None"


class ReportBotTests(WithStandIn):
    def start(self):
        folder = Path(tempfile.mkdtemp(dir=self.room))
        bot = ReportBot(str(self.program), folder)
        self.addCleanup(bot.close)
        return bot

    def ready(self):
        bot = self.start()
        self.assertTrue(bot.is_ready(SECONDS))
        return bot

    def test_what_it_is_asked_and_answers(self):
        self.put("changes-7", "change    7 \u00e9\r\n")
        bot = self.ready()
        bot.hand_in('{"id":"é"}')
        self.assertEqual((bot.queue(), bot.change(7), bot.change(8)), (EMPTY, "change    7 \u00e9\r\n", None))
        due = [["POST", "/deliveries", '{"id":"é"}'], *(["GET", it, ""] for it in ("/queue", "/changes/7", "/changes/8"))]
        self.assertEqual(self.requests(), due)

    def test_the_token_is_a_secret_of_each_start(self):
        bots = [self.ready(), self.ready()]
        self.assertNotEqual(bots[0].token, bots[1].token)
        for bot in bots:
            path = bot.folder / "token"
            self.assertEqual(path.read_text(encoding="utf-8").strip(), bot.token)
            self.assertEqual(path.stat().st_mode & 0o777, 0o600)
            self.assertGreaterEqual(len(bot.token), 32)
            self.assertNotIn(bot.token, json.dumps(self.starts()))

    def test_no_setting_leads_a_request_elsewhere(self):
        with mock.patch.dict(os.environ, http_proxy="http://127.0.0.1:9", HTTP_PROXY="http://127.0.0.1:9", ALL_PROXY="http://127.0.0.1:9"):
            self.assertEqual(self.ready().queue(), EMPTY)

    def test_a_port_that_is_taken_costs_another_start(self):
        self.behave("bind 2")
        bot = self.ready()
        ports = [it[it.index("--port") + 1] for it in self.starts()]
        self.assertEqual((len(ports), ports[-1]), (3, str(bot.port)))
        self.assertEqual(bot.queue(), EMPTY)

    def test_what_ends_a_start(self):
        for mode, due, starts in (
            ("fault", "has ended: gate: File", 1), (f"bind {report_bot.PORTS}", "has ended: gate: Bind", report_bot.PORTS),
            ("other", "says hello", 1),
        ):
            (self.room / "seen").unlink(missing_ok=True)
            self.behave(mode)
            bot = self.start()
            with self.assertRaisesRegex(NoReport, due):
                bot.is_ready(SECONDS)
            self.assertEqual(len(self.starts()), starts, mode)
            bot.close()
        self.program.unlink()
        with self.assertRaisesRegex(NoReport, "can't be started"):
            self.start()

    def test_a_start_is_not_waited_for(self):
        self.behave("slow")
        bot = self.start()
        for _ in range(2):
            before = time.monotonic()
            self.assertFalse(bot.is_ready(0.05))
            self.assertLess(time.monotonic() - before, 1)
        self.behave("good")
        self.assertTrue(bot.is_ready(SECONDS))
        self.behave("slow")
        with mock.patch.object(report_bot, "SECONDS_TO_START", 0), self.assertRaisesRegex(NoReport, "hasn't come to listen"):
            self.start().is_ready(0)

    def test_what_ends_a_request(self):
        for mode, due in (("ends", "has ended: status 3"), ("silent", "doesn't answer: timed out"), ("fails", "by 503")):
            self.behave("good")
            bot = self.ready()
            self.behave(mode)
            for ask in (bot.queue, lambda: bot.change(7), lambda: bot.hand_in("{}")):
                with mock.patch.object(report_bot, "SECONDS", 0.3), self.assertRaisesRegex(NoReport, due):
                    ask()
            bot.close()

    def test_another_token_is_refused(self):
        bot = self.ready()
        bot.token = "0" * 64
        with self.assertRaisesRegex(NoReport, "by 401"):
            bot.queue()

    def test_what_another_process_answers_does_not_count(self):
        """It has the port since the program has ended."""
        self.behave("gone")
        bot = self.ready()
        self.until("the other one is there", (self.room / "impostor").exists)
        with self.assertRaisesRegex(NoReport, "has ended"):
            bot.queue()
        self.assertEqual(self.requests(), [["GET", "/queue", ""]])

    def test_it_has_no_file_of_the_host(self):
        with open(self.room / "lock", "w", encoding="utf-8") as lock:
            os.set_inheritable(lock.fileno(), True)
            bot = self.ready()
            files = {os.readlink(it) for it in Path(f"/proc/{bot.process.pid}/fd").iterdir()}
        self.assertNotIn(str(self.room / "lock"), files)

    def ends_with_a_killed_host(self, program, more=""):
        """A host starts the program, runs these lines before, and is killed."""
        text = f"""\
            import sys, time
            sys.path.insert(0, {str(HOST)!r})
            from pathlib import Path
            from gate_host import report_bot
            {more}
            bot = report_bot.ReportBot({str(program)!r}, Path({tempfile.mkdtemp(dir=self.room)!r}))
            assert bot.is_ready({SECONDS})
            print(bot.process.pid, flush=True)
            time.sleep(600)
        """
        host = subprocess.Popen([sys.executable, "-c", textwrap.dedent(text)], stdout=subprocess.PIPE, encoding="utf-8")
        child = host.stdout.readline().strip()
        self.assertTrue(is_there(child))
        host.kill()
        host.wait()
        host.stdout.close()
        self.until("the bot for reports ends", lambda: not is_there(child))

    def test_it_ends_with_the_host_however_that_ends(self):
        self.behave("stays")
        self.ends_with_a_killed_host(self.program)

    def test_it_ends_with_the_host_by_its_input_alone(self):
        """As if the system didn't end it."""
        self.ends_with_a_killed_host(self.program, WITHOUT_THE_SYSTEM)
        self.assertEqual(self.seen()[-1], ["end of input"])

    @is_built
    def test_the_program_ends_with_the_host(self):
        for more in ("", WITHOUT_THE_SYSTEM):
            self.ends_with_a_killed_host(PROGRAM, more)

    def test_it_ends_in_order_when_its_input_is_closed(self):
        """Another one that was started meanwhile has no end of its input, and goes on."""
        bots = [self.ready(), self.ready()]
        with mock.patch.object(report_bot, "SECONDS_TO_END", SECONDS):
            bots[0].close()
        self.assertEqual((bots[0].process.returncode, self.seen()[-1]), (0, ["end of input"]))
        self.assertEqual(bots[1].queue(), EMPTY)

    @is_built
    def test_the_program_ends_in_order(self):
        bot = ReportBot(str(PROGRAM), Path(tempfile.mkdtemp(dir=self.room)))
        self.addCleanup(bot.close)
        self.assertTrue(bot.is_ready(SECONDS))
        self.assertEqual(bot.queue(), EMPTY)
        with mock.patch.object(report_bot, "SECONDS_TO_END", SECONDS):
            bot.close()
        self.assertEqual(bot.process.returncode, 0)

    def test_one_that_goes_on_is_killed(self):
        self.behave("stays")
        bot = self.ready()
        bot.close()
        self.assertEqual(bot.process.returncode, -signal.SIGKILL)

    def test_it_does_not_begin_without_a_host(self):
        for host, due in ((os.getpid(), 7), (1, 1)):
            ended = subprocess.run(["sh", "-c", "exit 7"], preexec_fn=lambda: end_with(host), check=False)
            self.assertEqual(ended.returncode, due)

    def test_a_port_is_another_each_time(self):
        self.assertGreater(len({free_port() for _ in range(20)}), 1)


class ResponseTests(unittest.TestCase):
    """Whoever gives a response has a time and a bound for the whole of it: once the program has ended, another one may have its port."""

    def serve(self, parts, pause):
        listener = socket.create_server(("127.0.0.1", 0))
        self.addCleanup(listener.close)

        def give():
            connection, _ = listener.accept()
            with connection, suppress(OSError):
                for part in parts:
                    connection.sendall(part)
                    time.sleep(pause)
        threading.Thread(target=give, daemon=True).start()
        return listener.getsockname()[1]

    def test_one_that_drips_is_not_waited_for(self):
        port, before = self.serve([b"x"] * 100, 0.1), time.monotonic()
        with mock.patch.object(report_bot, "SECONDS", 0.5), self.assertRaises(OSError):
            report_bot.exchanged(port, b"GET / HTTP/1.1")
        self.assertLess(time.monotonic() - before, 5)

    def test_one_that_never_ends_is_not_kept(self):
        port = self.serve([b"x" * 1000] * 1000, 0)
        with mock.patch.object(report_bot, "MOST_BYTES", 10000), self.assertRaisesRegex(OSError, "doesn't end"):
            report_bot.exchanged(port, b"GET / HTTP/1.1")

    def test_one_that_is_whole_is_given_at_once(self):
        whole = b"HTTP/1.1 200 OK\r\nContent-Length: 3\r\n\r\nabc"
        port, before = self.serve([whole[:10], whole[10:], b"more"], 0.2), time.monotonic()
        self.assertEqual(report_bot.response_in(report_bot.exchanged(port, b"GET / HTTP/1.1")), (200, b"abc"))
        self.assertLess(time.monotonic() - before, 2)


if __name__ == "__main__":
    unittest.main()
