#!/usr/bin/env python3
"""gate-host, which dies at each of its own steps once: before the step is written down, and after.

    dying_host.py MARKS ARGUMENT..

MARKS is a folder with a mark for each death. Steps are those of the journal, by the function that makes them, a note that is removed from
the spool, a check that has begun or ended, and a report or a page that is written.
"""
import os
import signal
import sys
from contextlib import contextmanager
from pathlib import Path

sys.dont_write_bytecode = True
sys.path.insert(0, str(Path(__file__).resolve().parent.parent))

from gate_host import checks  # noqa: E402
from gate_host import commands  # noqa: E402
from gate_host import journal  # noqa: E402
from gate_host import reports  # noqa: E402
from gate_host import spool  # noqa: E402
from gate_host.core.orders import orders_of  # noqa: E402
from gate_host.showing import files  # noqa: E402

MARKS = Path(sys.argv[1])


def die_first(name):
    """Dies if this comes for the first time."""
    try:
        (MARKS / name).mkdir()
    except FileExistsError:
        return
    os.kill(os.getpid(), signal.SIGKILL)


@contextmanager
def dying(step, name):
    with step:
        yield
        die_first(f"{name}-before")
    die_first(f"{name}-after")


def name_of_step(frame):
    """The name of the function that makes a step, with the fact that it is about, or with the event and the orders of an answer."""
    seen = frame.f_locals
    about = [type(seen["fact"]).__name__] if "fact" in seen else []
    if "read" in seen:
        about = [seen["delivery"].event, *sorted({type(order).__name__.lower() for order in orders_of(seen["read"])})]
    return "-".join([frame.f_code.co_name, *about])


def steps_die(step):
    return lambda journal: dying(step(journal), name_of_step(sys._getframe(1)))


def calls_die(cls, name, of=""):
    """Has a method die before and after it does its work."""
    method = getattr(cls, name)

    def dies(*given):
        die_first(f"{of}{name}-before-call")
        result = method(*given)
        if result is not None or name != "result_of":
            die_first(f"{of}{name}-after-call")
        return result

    setattr(cls, name, dies)


def main():
    journal.Journal.step = steps_die(journal.Journal.step)
    for cls, name in ((spool.Spool, "remove"), (checks.Checks, "start"), (checks.Checks, "result_of"), (reports.Reports, "put")):
        calls_die(cls, name)
    calls_die(files.Pages, "put", "page-")
    return commands.main(sys.argv[2:])


if __name__ == "__main__":
    sys.exit(main())
