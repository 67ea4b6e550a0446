#!/usr/bin/env python3
"""Times the reports of a host over a journal in which many changes have landed. It is no part of the checks: times depend on the machine.

    time_of_reports.py [--landed 10000] [--changes 20] [--room FOLDER] PROGRAM

The journal and the file of the bot are made by a talk with the program, of which each landing is one. Then it tells

- what a start costs: until the files that may be old are known, until the queue is written, and until each file is, without a mark, with
  no file of a change, and after an end in order;
- how long a report takes by itself, from an answer to the files;
- the same of a real host on a real repository, to which people push and comment: from an answer, as it comes to the host, to the files
  that have it on the disk. That is the time of a report, of the pauses of the loop, and of whatever else the host does in between.

FOLDER is where the repository stands, usually in memory.
"""
import argparse
import json
import shlex
import shutil
import statistics
import sys
import tempfile
import time
from pathlib import Path

TESTS = Path(__file__).resolve().parent
sys.dont_write_bytecode = True
sys.path[:0] = [str(TESTS.parent), str(TESTS)]

from gate_host.client import Bot  # noqa: E402
from gate_host.core.deliveries import touched  # noqa: E402
from gate_host.core.facts import Closed, Ended, MainSeen, Merged, Moved, Opened, RoleGiven, Said, Staged, Ticked  # noqa: E402
from gate_host.journal import Journal  # noqa: E402
from gate_host.places import Places  # noqa: E402
from gate_host.reports import MARK  # noqa: E402
from stories import Calm  # noqa: E402
from test_reports import begun  # noqa: E402

# Passes answers on, and writes down when each came: as a line of the time, the delivery and the answer.
STOPWATCH = """\
import json, os, subprocess, sys, time
answers, *command = sys.argv[1:]
if command[1:2] != ["guard"]:
    os.execv(command[0], command)
bot = subprocess.Popen(command, stdin=subprocess.PIPE, stdout=subprocess.PIPE, bufsize=0)
with open(answers, "a", encoding="utf-8", buffering=1) as file:
    for line in sys.stdin.buffer:
        bot.stdin.write(line)
        said = bot.stdout.readline()
        file.write(json.dumps([time.time(), line.decode(), json.dumps(json.loads(said)["answer"])]) + "\\n")
        sys.stdout.buffer.write(said)
        sys.stdout.buffer.flush()
bot.stdin.close()
sys.exit(bot.wait())
"""


class Timed(Calm):
    """A repository with one check, a host with the stopwatch, and a journal in which changes have landed."""

    sandbox = "off"
    landed = 10000
    pushed = 20

    def make_bot(self):
        path = self.room / "stopwatch.py"
        path.write_text(STOPWATCH, encoding="utf-8")
        command = [sys.executable, str(path), str(self.answers), self.program]
        return self.make_tool("gate", f"exec {shlex.join(command)} \"$@\"\n")

    def fill(self):
        """Has the changes land in the journal, as the loop of a host writes it."""
        places = Places(self.repository)
        journal = Journal(places.records / "journal.db")
        # The disk isn't what is measured here.
        journal.database.execute("PRAGMA synchronous = OFF")
        bot = Bot(self.program, places.bot)
        main = self.git("rev-parse", "main")

        known = journal.known()

        def say(*facts):
            for fact in facts:
                journal.record(known, known.clock, fact)
                while known.waiting:
                    journal.keep_answer(known, known.clock, bot.hand_in(known.waiting[0].line))

        begin = int(time.time()) - 2 * self.landed
        say(RoleGiven("rosa", "reviewer"), RoleGiven("milo", "member"), MainSeen(main, self.git("show", "main:bors.toml") + "\n"))
        for change in range(1, self.landed + 1):
            head, commit = f"{change:040x}", f"{change + 2 ** 40:040x}"
            say(Opened(change, "ines", head), Said(f"note-{change}", change, "rosa", "bors r+"), Ticked(begin + change))
            order, batch = next(iter(known.orders)), known.batches["staging"].stage.batch
            say(Merged(order, commit), Staged(order))
            say(*(Ended(batch, name, "success", "it ended", "x") for name in ("build", "lint")))
            say(Moved(next(iter(known.orders)), "main"))
        say(MainSeen(main, self.git("show", "main:bors.toml") + "\n"))
        with journal.step():
            journal.set_mark("log written up to", str(journal.count_told()))
        bot.close()
        journal.close()

    def happen(self):
        """People push and approve, some at a time, when the host has come to write reports."""
        (self.repository / "gate/reports/queue").unlink()
        self.until("there are reports", lambda: self.report("queue"))
        first = self.landed + 1
        for change in range(first, first + self.pushed):
            self.push("ines", change, {f"parts/number-{change}": "test 1 -gt 0\n"})
            if change % 5 == 0:
                self.until(f"there is a report of change {change}", lambda: self.report(f"change-{change}"))
        for change in range(first, first + self.pushed):
            self.until(f"there is a report of change {change}", lambda: self.report(f"change-{change}"))
            self.say("rosa", change, "bors r+")
        self.until("each change has landed", lambda: self.landed_now() == self.pushed)

    def landed_now(self):
        return len([change for change in self.heads if "state     landed\n" in self.report(f"change-{change}")])


def start_of(places, journal, program, what):
    """What a start costs, as the loop has it."""
    complaints = []
    begin = time.monotonic()
    reports = begun(places, journal, complaints.append)
    known = time.monotonic()
    due, waited, at_queue = len(reports.due), 0.0, None
    (places.reports / "queue").unlink(missing_ok=True)
    longest = 0.0
    while reports.is_behind:
        before = time.monotonic()
        reports.refresh(program, ["open: none"])
        longest = max(longest, time.monotonic() - before)
        if at_queue is None and (places.reports / "queue").exists():
            at_queue = time.monotonic()
        time.sleep(0.1)
        waited += 0.1
    at_end = time.monotonic()
    print(
        f"start {what}: {known - begin:.3f} s until {due} changes are known as due, {at_queue - begin:.3f} s until the queue is written, "
        f"{at_end - begin:.2f} s until all is, with {waited:.1f} s of pauses; the longest refresh took {longest:.3f} s", *complaints,
        flush=True,
    )
    return reports


def times_of_reports(places, journal, program, reports, changes):
    """How long each report takes by itself, from the answer on."""
    bot = Bot(program, places.bot)
    took, known = [], journal.known()
    for place in range(60):
        change = changes + 1 + place // 3
        fact = [Opened(change, "ines", "a" * 40), Said(f"priority-{change}", change, "rosa", "bors p=3"), Closed(change)][place % 3]
        journal.record(known, known.clock, fact)
        heard = journal.keep_answer(known, known.clock, bot.hand_in(known.waiting[0].line))
        begin = time.monotonic()
        reports.note(heard.delivery, touched(heard.delivery, heard.orders, known))
        reports.refresh(program, ["open: none"])
        took.append(time.monotonic() - begin)
        assert not reports.is_behind and (places.reports / f"change-{change}").exists()
    bot.close()
    return took


def times_of_host(story):
    """From each answer of the real host to the file that has it, as the change stands there: opened, or landed."""
    found = {}
    last = {}
    for line in story.answers.read_text(encoding="utf-8").splitlines():
        at, delivery, answer = json.loads(line)
        body = json.loads(delivery)
        if body["event"] == "opened":
            found[("opened", body["change"])] = at
        for reply in json.loads(answer):
            for order in reply.get("orders", []):
                if order["order"] == "stage":
                    last[order["batch"]] = [change for change, _ in order["heads"]]
        if body["event"] == "base":
            landed = last.get(story.batches.get(body["commit"]), [])
            found.update({("landed", change): at for change in landed})
        if body["event"] == "staged":
            story.batches[body["commit"]] = body["batch"]
    return found


class Watch:
    """Sees when a change stands in its file as opened, and as landed."""

    def __init__(self, story):
        self.story = story
        self.seen = {}

    def look(self):
        for change in self.story.heads:
            path = self.story.repository / "gate/reports" / f"change-{change}"
            try:
                at, text = path.stat().st_mtime, path.read_text(encoding="utf-8")
            except FileNotFoundError:
                continue
            kind = "landed" if "state     landed\n" in text else "opened"
            self.seen.setdefault((kind, change), at)


def told(name, took):
    took = sorted(took)
    print(f"{name}: {len(took)} times, middle {statistics.median(took):.3f} s, nine of ten within {took[len(took) * 9 // 10 - 1]:.3f} s, "
          f"longest {took[-1]:.3f} s", flush=True)


def pace():
    """How fast this Python is, on this machine, now."""
    begin = time.monotonic()
    sum(number * number for number in range(3000000))
    return time.monotonic() - begin


def main():
    parser = argparse.ArgumentParser(description=__doc__, formatter_class=argparse.RawDescriptionHelpFormatter)
    parser.add_argument("--landed", type=int, default=10000, help="how many changes have landed")
    parser.add_argument("--changes", type=int, default=20, help="how many changes people push to the real host")
    parser.add_argument("--room", default="/dev/shm", help="where the repository stands")
    parser.add_argument("program")
    said = parser.parse_args()
    room = Path(tempfile.mkdtemp(dir=said.room))
    try:
        Timed.landed, Timed.pushed = said.landed, said.changes
        story = Timed(Path(said.program).resolve(), room)
        story.batches = {}
        print(f"pace: {pace():.2f} s for 3,000,000 squares", flush=True)
        begin = time.monotonic()
        story.fill()
        places, program = Places(story.repository), story.program
        size = sum((places.records / name).stat().st_size for name in ("bot.db", "bot.db-wal") if (places.records / name).exists())
        print(f"{said.landed} changes landed in {time.monotonic() - begin:.0f} s; the bot's file has {size / 2 ** 20:.1f} MiB", flush=True)
        copied = room / "copied"
        journal = Journal(places.records / "journal.db")
        start_of(places, journal, program, "with no file").close()
        start_of(places, journal, program, "after an end in order").close()
        (places.reports / MARK).unlink()
        reports = start_of(places, journal, program, "without a mark")
        shutil.copytree(places.records, copied, symlinks=True)
        told("a report by itself", times_of_reports(places, journal, program, reports, said.landed))
        reports.close()
        journal.close()
        shutil.rmtree(places.records)
        shutil.copytree(copied, places.records, symlinks=True)
        (places.reports / MARK).unlink()
        for path in places.reports.glob("change-*"):
            if int(path.name.partition("-")[2]) > said.landed:
                path.unlink()
        watch = Watch(story)
        is_so = story.until

        def until(what, check):
            is_so(what, lambda: watch.look() or check())

        story.until = until
        story.play()
        answered = times_of_host(story)
        for kind in ("opened", "landed"):
            told(f"a real host, {kind}", [watch.seen[it] - at for it, at in answered.items() if it[0] == kind])
        print(f"pace: {pace():.2f} s for 3,000,000 squares", flush=True)
        print(story.errors.read_text(encoding="utf-8")[:600])
    finally:
        shutil.rmtree(room, ignore_errors=True)


if __name__ == "__main__":
    main()
