"""The bot, kept running: it is started anew if it has ended, gets what it lacks of the journal, and says what is to be done."""
import os
import shutil
import time
from typing import Callable, Dict, Iterable, Optional, Tuple, TypeVar

from .bot_file import has_file, lacks_answers
from .bot_settings import read_settings
from .client import BotEnded, Guard, NoSuchJob
from .core.duties import Duties
from .core.orders import Unread
from .faults import Trouble
from .journal import Journal
from .places import Places
from .ports import Reading
from .required import FOLDER
from .troubles import complain

# How often the bot is started again before the host gives up. The pauses grow up to ten seconds.
STARTS = 12
MOST_READINGS = 20

Given = TypeVar("Given")


class KeptBot:
    """A bot that answers whenever it can be made to."""

    def __init__(self, places: Places, journal: Journal, program: Callable[[], str], is_all_again: bool, is_ending: Callable[[], bool]):
        self.places, self.journal = places, journal
        # Which program it is, as the settings say now; and whether the host is to end.
        self.program, self.is_ending = program, is_ending
        self.is_all_again = is_all_again
        self.bot: Optional[Guard] = None
        # What is to be done, as it has said last.
        self.said: Optional[Duties] = None
        self.starts = 0
        # What it reads in texts of settings, by the program and the text.
        self.readings: Dict[Tuple[str, str], Reading] = {}
        for left in places.records.glob(f"{FOLDER}*"):
            shutil.rmtree(left, ignore_errors=True)

    def must_belong_to_journal(self) -> None:
        """The journal and the file of the bot are of one history."""
        if not os.access(self.program(), os.X_OK):
            raise Trouble(f"there is no program {self.program()}; build it, or name another in {self.places.settings}")
        if has_file(self.places) and self.journal.is_empty():
            raise Trouble(f"the journal is new, and the bot has records; remove {self.places.bot} and {self.places.bot}-wal")

    def hand_in(self, line: str) -> str:
        """The answer of the bot, which is started anew if it has ended."""
        return self.given(lambda bot: self.handed_in(bot, line))

    def duties(self) -> Duties:
        """What is to be done after all that was handed in. After a start of the host the bot has to be asked, if it ever had a delivery."""
        if self.said is None and self.journal.count_answered():
            self.given(lambda bot: None)
        return self.said or Duties()

    def given(self, by: Callable[[Guard], Given]) -> Given:
        """What a bot gives that is there, however often it has to be started for that."""
        for attempt in range(STARTS):
            try:
                if self.bot is None:
                    self.bot = self.start()
                return by(self.bot)
            except NoSuchJob as fault:
                # However often it is started, it stays the same program.
                raise Trouble(self.too_old(str(fault))) from fault
            except BotEnded as fault:
                complain(f"{fault}; the bot is started again")
                self.close()
                if self.is_ending():
                    break
                time.sleep(min(10.0, 0.1 * 2 ** attempt))
        raise Trouble("the bot gives no answer, however often it is started")

    def too_old(self, said: str) -> str:
        """What is told of a program that doesn't know the job, with the first line of what it has said."""
        build = f"build the one of this host, or name another in {self.places.settings}"
        return f"{self.program()} has no `gate guard`, so it is older than this host; {build}. It says: {said.partition(chr(10))[0]}"

    def handed_in(self, bot: Guard, line: str) -> str:
        """The answer of a bot to a delivery. What is to be done after it is kept."""
        try:
            answered = bot.hand_in(line)
        except Unread as fault:
            raise Trouble(f"the bot takes this for no delivery, or isn't the one of this host: {fault}: {line}") from fault
        self.said = answered.duties
        return answered.text

    def read(self, settings: str) -> Reading:
        """What the bot reads in a text of settings, by a run of its program for that alone."""
        program = self.program()
        if (program, settings) not in self.readings:
            # Few texts count at one time: that of the main branch, the one before it, and those of batches that alter it.
            self.readings = dict(list(self.readings.items())[-MOST_READINGS:])
            self.readings[(program, settings)] = read_settings(program, settings, self.places.records)
        return self.readings[(program, settings)]

    def has_read(self, settings: str) -> Optional[Reading]:
        """What it has read in a text of settings before, without a run."""
        return self.readings.get((self.program(), settings))

    def start(self) -> Guard:
        """Starts the bot. If its file lacks answers of the journal, it gets all deliveries again, and else the last one alone, so that it
        says what is to be done. It has to give the same answers."""
        is_behind = lacks_answers(self.places, self.journal)
        if is_behind and self.journal.count_answered():
            complain(f"{self.places.bot} lacks answers that the journal has, so the bot gets all deliveries again")
        bot = Guard(self.program(), self.places.bot)
        self.starts += 1
        again: Iterable[Tuple[str, str]] = self.journal.answered_last()
        if is_behind or self.is_all_again:
            again = self.journal.answered()
        try:
            for line, answer in again:
                if self.handed_in(bot, line) != answer:
                    raise Trouble(f"the bot answers another way than before to {line}")
        except (BotEnded, Trouble):
            bot.close()
            raise
        self.is_all_again = False
        return bot

    def close(self) -> None:
        if self.bot:
            self.bot.close()
        self.bot = None
