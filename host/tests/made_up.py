"""Journals of made-up teams, with the answers of the built program: people, changes, checks of which each takes another time, and a clock
that costs no time. `python3 made_up.py FILE [SEED [BATCH]]` writes one."""
import json
import random
import sys
from pathlib import Path

sys.path.insert(0, str(Path(__file__).resolve().parent.parent))

from gate_host.audit.entries import Fact, Journal, Row  # noqa: E402
from gate_host.client import Bot  # noqa: E402
from gate_host.supposing.evidence import Basis, Check, Merge  # noqa: E402
from gate_host.supposing.history import Happening, History  # noqa: E402
from gate_host.supposing.world import Rules, World  # noqa: E402
from stand_in import PROGRAM  # noqa: E402

BEGIN = 1_700_000_000
REQUIRED = {"build": (240, 0.25), "lint": (40, 0.15), "test": (420, 0.35)}


class Truth:
    """How merges and checks go in a made-up world: a share of the heads fails a check whatever it is tested with."""

    def __init__(self, chance, failing):
        self.chance, self.failing, self.bad = chance, failing, {}

    def merge_of(self, content, heads, time=0):
        return Merge(True, self.chance.randint(0, 2), Basis.KNOWN)

    def check_of(self, name, content, heads, time=0):
        middle, spread = REQUIRED[name]
        after = max(1, round(self.chance.lognormvariate(0, spread) * middle))
        fails = name == "test" and any([self.is_bad(head) for head in heads])
        return Check(name, "failure" if fails else "success", after, Basis.KNOWN)

    def is_bad(self, head):
        if head not in self.bad:
            self.bad[head] = self.chance.random() < self.failing
        return self.bad[head]


class Recorded(World):
    """A play that is written down."""

    def __init__(self, history, evidence, rules, bot):
        super().__init__(history, evidence, rules, self.recorded)
        self.bot, self.facts, self.rows = bot, [], []

    def give(self, id, fields, at):
        self.facts.append(Fact(len(self.facts) + 1, at, "Ticked", '{"now": 0}'))
        return super().give(id, fields, at)

    def recorded(self, line):
        answer = self.bot.hand_in(line)
        number = len(self.facts)
        self.rows.append(Row(number, number, json.loads(line)["id"], line, answer))
        return answer


def happenings_of(chance, changes, settings, pause, moves):
    """A team whose people approve changes at any time, and sometimes push to the main branch past the queue."""
    found, at = [], BEGIN

    def add(event, **fields):
        found.append(Happening(len(found) + 1, at, f"{event}-{len(found) + 1}", {"event": event, **fields}))

    add("role", person="rosa", role="reviewer")
    add("settings", text=settings)
    add("base", commit=f"{chance.getrandbits(160):040x}")
    for change in range(1, changes + 1):
        at += round(chance.expovariate(1 / pause))
        add("opened", change=change, author="otto", head=f"{chance.getrandbits(160):040x}")
        at += chance.randint(1, 60)
        add("comment", change=change, person="rosa", text="bors r+")
        if chance.random() < moves:
            at += chance.randint(1, 200)
            add("base", commit=f"{chance.getrandbits(160):040x}")
        if chance.random() < moves:
            at += chance.randint(1, 300)
            add("pushed", change=change, head=f"{chance.getrandbits(160):040x}")
    return found


def made_up(seed=1, batch=8, changes=200, failing=0.1, pause=300, moves=0.03, program=PROGRAM):
    """A journal of a made-up team."""
    chance = random.Random(seed)
    settings = f'status = {json.dumps(list(REQUIRED))}\nmax_batch_size = {batch}\n'
    history = History(happenings_of(chance, changes, settings, pause, moves), [], 10)
    bot = Bot(str(program), None)
    try:
        world = Recorded(history, Truth(chance, failing), Rules(None, {settings: list(REQUIRED)}), bot)
        world.play()
    finally:
        bot.close()
    return Journal(world.facts, world.rows)


if __name__ == "__main__":
    from test_audit_files import write_journal
    write_journal(sys.argv[1], made_up(*map(int, sys.argv[2:]))).close()
