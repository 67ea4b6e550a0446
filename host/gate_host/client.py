"""The bot, as a child of the host, with deliveries on one pipe and answers on another: `gate guard --db FILE`, or `gate run` if what is to
be done doesn't matter."""
import os
import select
import subprocess
import tempfile
import time
from pathlib import Path
from typing import IO, Optional

from .core.duties import Answered, answered_in

# The first answer comes when the bot has read its file, which takes time in its size.
SECONDS_FOR_FIRST = 600
SECONDS = 120
# With this status the program refuses the words that it is started with, and nothing else.
WRONG_WORDS = 2


class BotEnded(Exception):
    """The bot has ended, or gives no answer, with what it said of it."""


class NoSuchJob(BotEnded):
    """The program refuses the words that it was started with, so it is of another version, with what it said of it."""


class Child:
    """A running program. It ends with its input, and so with the host, however that ends."""

    def __init__(self, program: str, job: str, database: Optional[Path]):
        """Starts it over the records in a file, or without any."""
        self.said = tempfile.TemporaryFile()
        command = [program, job, *(["--db", str(database)] if database else [])]
        try:
            self.process = subprocess.Popen(
                command, stdin=subprocess.PIPE, stdout=subprocess.PIPE, stderr=self.said, bufsize=0, start_new_session=True,
            )
        except OSError as fault:
            self.said.close()
            raise BotEnded(f"{program} can't be started: {fault.strerror}") from fault
        self.given, self.answers = piped(self.process.stdin), piped(self.process.stdout)
        self.seconds = SECONDS_FOR_FIRST
        self.rest = b""
        self.has_written = False

    def line_after(self, line: str) -> str:
        """Gives the program a line, and gives the one that it writes then."""
        left = line.encode() + b"\n"
        try:
            # A signal may come when only a part is written.
            while left:
                left = left[self.given.write(left):]
        except OSError:
            raise self.ended() from None
        late = time.monotonic() + self.seconds
        while b"\n" not in self.rest:
            ready, _, _ = select.select([self.answers], [], [], max(0.0, late - time.monotonic()))
            if not ready:
                self.process.kill()
                raise BotEnded(f"the bot gave no answer for {self.seconds} seconds")
            part = os.read(self.answers.fileno(), 65536)
            if not part:
                raise self.ended()
            self.rest += part
            self.has_written = True
        answer, _, self.rest = self.rest.partition(b"\n")
        self.seconds = SECONDS
        return answer.decode()

    def ended(self) -> BotEnded:
        """How the bot has ended, by its own words or its status."""
        try:
            status = self.process.wait(10)
        except subprocess.TimeoutExpired:
            self.process.kill()
            status = self.process.wait()
        self.said.seek(0)
        words = self.said.read(1000).decode(errors="replace").strip() or f"the bot ended with status {status}"
        return NoSuchJob(words) if status == WRONG_WORDS and not self.has_said_more() else BotEnded(words)

    def has_said_more(self) -> bool:
        """Whether a program that has ended has ever written anything to standard output. It may not have been read yet."""
        is_left = select.select([self.answers], [], [], 0)[0]
        return self.has_written or bool(is_left and os.read(self.answers.fileno(), 1))

    def close(self) -> None:
        """Ends the bot by the end of its input, which has it leave its file in order."""
        self.given.close()
        try:
            self.process.wait(60)
        except subprocess.TimeoutExpired:
            self.process.kill()
            self.process.wait()
        self.answers.close()
        self.said.close()


class Bot(Child):
    """A bot that answers, by `gate run`."""

    def __init__(self, program: str, database: Optional[Path]):
        super().__init__(program, "run", database)

    def hand_in(self, line: str) -> str:
        """Hands a delivery in, and gives the answer."""
        return self.line_after(line)


class Guard(Child):
    """A bot that says with each answer what is to be done, by `gate guard`."""

    def __init__(self, program: str, database: Optional[Path]):
        super().__init__(program, "guard", database)

    def hand_in(self, line: str) -> Answered:
        """Hands a delivery in, and gives the answer with what is to be done after it. `Unread` if it says anything else."""
        return answered_in(self.line_after(line))


def piped(stream: Optional[IO[bytes]]) -> IO[bytes]:
    """A stream of a child that was started with a pipe there."""
    if stream is None:
        raise BotEnded("the bot was started without pipes")
    return stream
