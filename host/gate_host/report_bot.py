"""The bot for reports: `gate serve` beside the bot that decides, over a copy of its file, asked over HTTP.

It is the same program, and is handed in what the first one has answered. So it is in the same state, and its reports are those of the
first one. Nothing else rests on it. Whatever becomes of it, another one over a new copy takes its place.

It listens on this machine alone, and serves nobody without the token. That is a new one at each start, in a file that only the owner of
the host may read. Others can still connect, and keep it from answering. Then it is taken for lost.
"""
import ctypes
import http.client
import io
import os
import re
import secrets
import select
import signal
import socket
import subprocess
import tempfile
import time
from contextlib import suppress
from pathlib import Path
from typing import List, Optional, Tuple

ADDRESS = "127.0.0.1"
# The most that the program takes. Each request is one, and so is each connection of somebody without the token.
CONNECTIONS = 1000000
# What a request may take, to the last byte of its response. It takes milliseconds, unless others fill all places.
SECONDS = 2
# A report of a queue of thousands of batches is shorter.
MOST_BYTES = 64 * 2 ** 20
# In which the program ends once its input is closed, or notes that its connection was cut off.
SECONDS_TO_END = 0.2
# As long as the first answer of the bot that decides: both read the same file. Nobody is held up meanwhile.
SECONDS_TO_START = 600
# Another process may take a port between the look for a free one and the start. It is tried again so often.
PORTS = 5
NO_PORT = "gate: Bind"
PR_SET_PDEATHSIG = 1
# Looked up here, since between a fork and the start of a program as little as possible is done.
LIBC = ctypes.CDLL(None)
LIBC.prctl.argtypes = [ctypes.c_int, *[ctypes.c_ulong] * 4]


class NoReport(Exception):
    """The bot for reports can't be started, has ended or doesn't answer, with why."""


class ReportBot:
    """A running bot for reports, over the file `bot.db` of a folder that nobody else may read. It ends when its input is closed, of which
    the host alone has the other end. So it ends with the host, however that ends. While it reads its file it doesn't look at its input.
    So the system ends it too."""

    def __init__(self, program: str, folder: Path, has_file: bool = True):
        """Starts it over the file of a folder, or else without records of before."""
        self.program = program
        self.folder = folder
        self.records = ["--db", str(folder / "bot.db")] if has_file else []
        self.token = secrets.token_hex(32)
        write_for_owner(folder / "token", f"{self.token}\n")
        self.ports_left = PORTS
        self.late = time.monotonic() + SECONDS_TO_START
        self.is_listening = False
        self.start()

    def start(self) -> None:
        """Starts the program on a port that is free now."""
        self.ports_left -= 1
        self.port = free_port()
        self.line = b""
        command = [
            self.program, "serve", *self.records, "--port", str(self.port), "--count", str(CONNECTIONS),
            "--token", str(self.folder / "token"), "--until-input-ends",
        ]
        host = os.getpid()
        self.said = tempfile.TemporaryFile()
        self.output = self.input = -1
        theirs: List[int] = []
        try:
            self.output, output = os.pipe()
            theirs.append(output)
            given, self.input = os.pipe()
            theirs.append(given)
            self.process = subprocess.Popen(
                command, stdin=given, stdout=output, stderr=self.said, start_new_session=True, preexec_fn=lambda: end_with(host),
            )
        except (OSError, subprocess.SubprocessError) as fault:
            self.close_files()
            raise NoReport(f"{self.program} can't be started: {fault}") from fault
        finally:
            for file in theirs:
                os.close(file)

    def is_ready(self, seconds: float) -> bool:
        """Whether it listens, for which it is waited so long. If it ends before, it gets another port."""
        late = time.monotonic() + seconds
        while not self.is_listening:
            ready, _, _ = select.select([self.output], [], [], max(0.0, late - time.monotonic()))
            if not ready and time.monotonic() >= self.late:
                raise NoReport(f"the bot for reports hasn't come to listen within {SECONDS_TO_START} seconds")
            if not ready:
                return False
            part = os.read(self.output, 4096)
            if not part:
                self.start_again()
            self.line += part
            self.is_listening = self.line == f"listening on {ADDRESS}:{self.port}\n".encode()
            if b"\n" in self.line and not self.is_listening:
                raise NoReport(f"{self.program} isn't the program of the bot; it says {self.line.decode(errors='replace').strip()}")
        return True

    def start_again(self) -> None:
        """Starts the program on another port, if it has ended for want of that one."""
        ended = self.ended()
        if self.ports_left == 0 or NO_PORT not in str(ended):
            raise ended
        self.close_files()
        self.start()

    def hand_in(self, line: str) -> None:
        """Hands in a delivery that the first bot has answered. One that it has already changes nothing."""
        status, _ = self.ask("POST", "/deliveries", line.encode())
        if status != 200:
            raise NoReport(f"the bot for reports answers a delivery by {status}")

    def queue(self) -> str:
        """The report of the queue."""
        status, text = self.ask("GET", "/queue")
        if status != 200:
            raise NoReport(f"the bot for reports answers for the queue by {status}")
        return text

    def change(self, number: int) -> Optional[str]:
        """The report of a change, or none if it was never opened."""
        status, text = self.ask("GET", f"/changes/{number}")
        if status not in (200, 404):
            raise NoReport(f"the bot for reports answers for change {number} by {status}")
        return text if status == 200 else None

    def ask(self, method: str, target: str, body: bytes = b"") -> Tuple[int, str]:
        """The status and the text of a response. No setting of the environment leads a request elsewhere. Once the program has ended,
        another process can have the port. So a response counts only if the program is still there behind it, and it has its time and its
        bound as a whole, whoever gives it."""
        lines = [
            f"{method} {target} HTTP/1.1", f"Host: {ADDRESS}:{self.port}", f"Authorization: Bearer {self.token}",
            f"Content-Length: {len(body)}", "Connection: close",
        ]
        try:
            written = exchanged(self.port, "".join(f"{line}\r\n" for line in [*lines, ""]).encode() + body)
            status, text = response_in(written)
        except (OSError, http.client.HTTPException) as fault:
            raise self.silent(fault) from fault
        if self.process.poll() is not None:
            raise self.ended()
        return status, text.decode(errors="replace")

    def silent(self, fault: Exception) -> NoReport:
        """Why there is no response: the program has ended, or it is there and doesn't answer. The connection ends shortly before it."""
        try:
            self.process.wait(SECONDS_TO_END)
            return self.ended()
        except subprocess.TimeoutExpired:
            return NoReport(f"the bot for reports doesn't answer: {str(fault) or type(fault).__name__}")

    def ended(self) -> NoReport:
        """How the program has ended, by its own words or its status."""
        self.process.kill()
        status = self.process.wait()
        self.said.seek(0)
        words = self.said.read(1000).decode(errors="replace").strip()
        return NoReport(f"the bot for reports has ended: {words or f'status {status}'}")

    def close(self) -> None:
        """Ends it, by its input. Its file is a copy that nobody needs, so it is waited for a moment only, and then killed."""
        self.close_input()
        with suppress(subprocess.TimeoutExpired):
            self.process.wait(SECONDS_TO_END)
        self.process.kill()
        self.process.wait()
        self.close_files()

    def close_input(self) -> None:
        if self.input >= 0:
            os.close(self.input)
        self.input = -1

    def close_files(self) -> None:
        self.close_input()
        if self.output >= 0:
            os.close(self.output)
        self.output = -1
        self.said.close()


def exchanged(port: int, request: bytes) -> bytes:
    """What comes for a request, to the end of the response."""
    late = time.monotonic() + SECONDS
    with socket.create_connection((ADDRESS, port), SECONDS) as connection:
        connection.sendall(request)
        found = b""
        while not is_whole(found):
            connection.settimeout(max(0.001, late - time.monotonic()))
            part = connection.recv(65536)
            if not part:
                break
            found += part
            if len(found) > MOST_BYTES or time.monotonic() > late:
                raise OSError("the response doesn't end")
        return found


def is_whole(found: bytes) -> bool:
    """Whether a response has come to its end, by the length that its head gives."""
    head, end, body = found.partition(b"\r\n\r\n")
    length = re.search(rb"(?im)^content-length: *([0-9]{1,9})\r?$", head)
    return bool(end) and length is not None and len(body) >= int(length[1])


class Written:
    """What was read of a connection, as the library wants it."""

    def __init__(self, content: bytes):
        self.content = content

    def makefile(self, mode: str) -> io.BytesIO:
        return io.BytesIO(self.content)


def response_in(written: bytes) -> Tuple[int, bytes]:
    """The status and the body of a response."""
    response = http.client.HTTPResponse(Written(written))  # type: ignore[arg-type]
    response.begin()
    return response.status, response.read()


def end_with(host: int) -> None:
    """Runs in a process that the host has just made, before the program: it is to end when the host ends. If the host has ended already,
    nobody tells it any more."""
    if LIBC.prctl(PR_SET_PDEATHSIG, signal.SIGKILL, 0, 0, 0) != 0 or os.getppid() != host:
        os._exit(1)


def write_for_owner(path: Path, text: str) -> None:
    """Makes a file that nobody else may read, at no time."""
    file = os.open(path, os.O_WRONLY | os.O_CREAT | os.O_EXCL | os.O_CLOEXEC, 0o600)
    with open(file, "w", encoding="utf-8") as written:
        written.write(text)


def free_port() -> int:
    """A port that is free now."""
    with socket.socket(socket.AF_INET, socket.SOCK_STREAM) as found:
        found.bind((ADDRESS, 0))
        port: int = found.getsockname()[1]
        return port
