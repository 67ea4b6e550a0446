"""`gate-host what-if`: reads a copy of the journal, and has the program play it twice: under its own settings, and under others. It writes
nothing in the repository."""
import argparse
import sys
from concurrent.futures import ThreadPoolExecutor
from dataclasses import replace
from datetime import datetime
from pathlib import Path
from typing import Dict, List, Mapping, Optional, Sequence

from ..audit.entries import Journal
from ..audit.replay import answers_of, differences
from ..bot_settings import read_settings
from ..client import Bot, BotEnded
from ..core.orders import Unread
from ..core.words import MOST_IN_SETTINGS
from ..explaining.courses import courses_of
from ..explaining.events import Moment, moment_of
from ..faults import Trouble, Unable
from ..journal_copy import journal_of, program_of, room_for
from ..places import find_places
from ..required import required_statuses
from .compared import Comparison, compared
from .evidence import Evidence
from .history import History, first_time, history_of
from .shown import json_of, text_of
from .tally import Tally
from .world import Played, Rules, World


def suppose(arguments: argparse.Namespace) -> int:
    """Says what would have differed under the settings of a file."""
    places = find_places(arguments.repository)
    program, text = program_of(places), text_in(arguments.settings)
    try:
        with room_for(places) as room:
            found = comparison_of(journal_of(places, room), text, program, arguments.since, room)
    except (Unable, BotEnded, Unread) as fault:
        raise Trouble(str(fault)) from fault
    print(json_of(found) if arguments.json else text_of(found), end="")
    sys.stdout.flush()
    return 0


def text_in(file: str) -> str:
    """The text of a file of settings, or of standard input. It is read no further than the host reads one."""
    try:
        if file == "-":
            content = sys.stdin.buffer.read(MOST_IN_SETTINGS + 1)
        else:
            with open(file, "rb") as given:
                content = given.read(MOST_IN_SETTINGS + 1)
    except OSError as fault:
        raise Trouble(f"{file} can't be read: {fault.strerror}") from fault
    if len(content) > MOST_IN_SETTINGS:
        raise Trouble(f"{file} has more than {MOST_IN_SETTINGS} bytes, and no host takes such settings")
    return content.decode("utf-8", "replace")


def comparison_of(journal: Journal, text: str, program: str, since: Optional[str], room: Path) -> Comparison:
    """What would have differed under other settings, by runs of the program in a room."""
    read = read_settings(program, text, room)
    if read.refusal:
        raise Trouble(f"the bot refuses these settings: {read.refusal}")
    moment = moment_of(journal, None)
    after = time_of(since, journal) if since is not None else None
    must_be_of_program(program, moment)
    required = required_of(program, moment, room)
    history = history_of(journal, moment.events, courses_of(moment.events, required, set()))
    plays = [Rules(None, required), Rules(text, {**required, text: read.required})]
    with ThreadPoolExecutor(len(plays)) as threads:
        before, supposed = threads.map(lambda rules: played(program, history, rules), plays)
    found = compared(truth_of(moment), before, supposed, after)
    return replace(found, freezes=sum(fact.kind == "Frozen" for fact in moment.freezes))


def must_be_of_program(program: str, moment: Moment) -> None:
    found = differences(moment.rows, answers_of(program, [row.line for row in moment.rows]))
    if found:
        raise Trouble(f"{program} isn't the program of this journal, or the journal was altered: {found[0].said}")


def required_of(program: str, moment: Moment, room: Path) -> Mapping[str, Sequence[str]]:
    """Which statuses each text of settings requires that was taken."""
    texts = dict.fromkeys(event.text for event in moment.events if event.kind == "settings" and event.is_done)
    found: Dict[str, List[str]] = {}
    for text in texts:
        names = required_statuses(program, text)
        if isinstance(names, list):
            found[text] = names
    return found


def time_of(since: str, journal: Journal) -> int:
    """A time by its date, in the local zone, or by a delivery of the journal."""
    row = next((row for row in journal.rows if row.id == since), None)
    if row:
        return next((fact.at for fact in journal.facts if fact.number == row.fact), 0)
    try:
        return int(datetime.fromisoformat(since).timestamp())
    except (ValueError, OverflowError, OSError):
        raise Trouble(f"{since} is neither a date, as in 2026-11-30 or 2026-11-30T12:00, nor a delivery of the journal") from None


def truth_of(moment: Moment) -> Tally:
    """What truly became of the changes."""
    tally = Tally()
    at = first_time(moment.events)
    for row, event in zip(moment.rows, moment.events):
        at = at if event.mark.at is None else event.mark.at
        tally.take_line(at, row.line, event.answer)
    return tally


def played(program: str, history: History, rules: Rules) -> Played:
    """A play of a history, with a bot of its own that has no records of before."""
    bot = Bot(program, None)
    try:
        return World(history, Evidence(history.trials), rules, bot.hand_in).play()
    finally:
        bot.close()
