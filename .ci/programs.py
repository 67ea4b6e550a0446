"""What the tests in this folder share: where the built programs are, how a failure is told, how a program is run and served, the
requests to it, and its database files as the stock SQLite reads them.

A script that imports this sets `sys.dont_write_bytecode` before, so that nothing is left in the folder.
"""
import json
import os
import random
import resource
import select
import socket
import sqlite3
import subprocess
import tempfile
import time
from collections import deque
from contextlib import closing, suppress
from functools import partial
from http.client import HTTPConnection
from importlib.machinery import SourceFileLoader
from importlib.util import module_from_spec, spec_from_loader
from itertools import count
from pathlib import Path
from threading import Lock
from typing import Any, Callable, Dict, List, Optional, Sequence, Tuple, TypeVar, Union

TOP = Path(__file__).resolve().parent.parent
BY_LLVM = TOP / "crates/gate_bot/out/gate_bot"
BY_RATTLE = BY_LLVM.with_name("gate_bot.by-rattle")
BOOKS = TOP / "crates/gate_books/out/gate_books"
SHIM = TOP / ".ci/faults.c"

# What a run, and a response, may take before its program counts as one that never ends; and what a run may that has more to do.
SECONDS = 30
MORE_SECONDS = 600

# For a program that serves until it is killed.
MANY_CONNECTIONS = 1_000_000

HEADING = "           batch branch  state     prio changes\n"


def loaded(name):
    """A script of this folder, as a module."""
    loader = SourceFileLoader(name, str(TOP / ".ci" / name))
    module = module_from_spec(spec_from_loader(name, loader))
    loader.exec_module(module)
    return module


# --- Failures


class Failed(Exception):
    """What is wrong with a case."""


# What a case returns.
Result = TypeVar("Result")


def want(what: str, found: object, due: object) -> None:
    if found != due:
        raise Failed(f"{what} is {excerpt(found)}, and should be {excerpt(due)}")


def excerpt(thing: object) -> str:
    text = repr(thing)
    return text if len(text) < 400 else f"{text[:200]} .. {text[-200:]}"


def outcome_of(case: Callable[..., Result], *given: Any) -> Tuple[Optional[Result], Optional[str]]:
    """What a case returns, and what is wrong with it. One of both is none."""
    try:
        return case(*given), None
    except Failed as failed:
        return None, str(failed)
    except (OSError, sqlite3.Error, subprocess.SubprocessError) as fault:
        return None, f"the system: {fault}"


def failure_of(case, *given):
    """What is wrong with a case, or none."""
    return outcome_of(case, *given)[1]


def passes(failures, path, case, *given):
    """Whether a case passes with a program. What is wrong with it is added to the failures."""
    failure = failure_of(case, *given)
    if failure:
        failures.append(f"{path.name}, {case.__name__.replace('_', ' ')}: {failure}")
    return failure is None


def status_of(name: str, passed: int, failures: Sequence[str]) -> int:
    """Prints the failures of a script, and the counts in its last line. The status with which it ends."""
    for failure in failures:
        print(f"FAILED {failure}")
    print(f"{name}: {passed} passed, {len(failures)} failed")
    return 1 if failures else 0


# --- What `rt ci` leaves


def builds_of(program: Path, failures: List[str]) -> List[Path]:
    """A program by LLVM, which has to be there, and by Rattle's own compiler if it is there too."""
    if not program.is_file():
        failures.append(f"{program.relative_to(TOP)} isn't built: `.ci/run` or `rt ci` leaves it")
    return [it for it in (program, program.with_name(f"{program.name}.by-rattle")) if it.is_file()]


def programs_of(paths, failures):
    """The programs that a script is started with, or else the builds of the bot."""
    return [Path(it).resolve() for it in paths] or builds_of(BY_LLVM, failures)


# --- Runs


class Program:
    """A built program, and a folder for its files."""

    def __init__(self, path: Union[str, Path], room: Union[str, Path]) -> None:
        self.path = str(path)
        self.room = Path(room)
        self.made = count(1)

    def file(self) -> Path:
        """A file that isn't there yet."""
        return self.room / f"{next(self.made)}"

    def run(self, words: Sequence[str] = (), given: bytes = b"", seconds: int = SECONDS, **how: Any) -> Tuple[int, bytes, bytes]:
        """The status of a run, and the bytes on standard output and standard error. `how` is for `subprocess`."""
        how = {"stdout": subprocess.PIPE, "stderr": subprocess.PIPE, **({} if "stdin" in how else {"input": given}), **how}
        try:
            ran = subprocess.run([self.path, *words], timeout=seconds, cwd=self.room, **how)
        except subprocess.TimeoutExpired as late:
            raise Failed(f"it had not ended after {seconds} seconds") from late
        return ran.returncode, ran.stdout or b"", ran.stderr or b""


def over(file: Optional[Path]) -> List[str]:
    """The words for records in a file, or in memory."""
    return [] if file is None else ["--db", str(file)]


def lines_of(deliveries):
    """The deliveries as lines, each with its number as its identifier."""
    return [json.dumps({"id": str(number), **it}) for number, it in enumerate(deliveries, 1)]


def written(lines):
    return "".join(f"{line}\n" for line in lines).encode()


def rows_of(file):
    """The rows of each table, as the stock SQLite reads them, which finds the file whole. Without a file there is none."""
    if not Path(file).exists():
        return {}
    with closing(sqlite3.connect(file)) as database:
        want("what the stock SQLite says of the file", database.execute("PRAGMA integrity_check").fetchall(), [("ok",)])
        tables = [name for name, in database.execute("SELECT name FROM sqlite_schema WHERE type = 'table'")]
        return {table: sorted(database.execute(f"SELECT * FROM {table}").fetchall()) for table in tables}


def run_apart(command: Sequence[str], given: bytes, seconds: int) -> Tuple[int, bytes, bytes]:
    """The exit status of a program, and what it wrote and complained, by way of files."""
    with tempfile.TemporaryFile() as answers, tempfile.TemporaryFile() as errors:
        try:
            status = subprocess.run(command, input=given, stdout=answers, stderr=errors, timeout=seconds).returncode
        except subprocess.TimeoutExpired as late:
            raise Failed(f"it had not ended after {seconds} seconds") from late
        answers.seek(0)
        errors.seek(0)
        return status, answers.read(), errors.read()


def quick_room() -> "tempfile.TemporaryDirectory[str]":
    """A folder that is removed in the end. If files can be in memory it is there, since a sync costs nothing there."""
    return tempfile.TemporaryDirectory(dir="/dev/shm" if os.access("/dev/shm", os.W_OK) else None)


def made_shim(room: Path) -> Path:
    """.ci/faults.c, as what is loaded before the C library."""
    shim = Path(room, "faults.so")
    subprocess.run(["cc", "-O2", "-shared", "-fPIC", "-o", str(shim), str(SHIM)], check=True)
    return shim


def under(limits: Sequence[Tuple[int, int]]) -> Dict[str, Any]:
    """How a program is started under these limits."""
    return {"preexec_fn": partial(set_limits, limits)}


def set_limits(limits: Sequence[Tuple[int, int]]) -> None:
    for kind, most in limits:
        # The hard limit stays, so that a case can lift the other one later.
        resource.setrlimit(kind, (most, resource.getrlimit(kind)[1]))


# --- `gate serve`


class Server:
    """`gate serve` for so many connections, from the moment that it listens. It is killed in the end, if it hasn't ended."""

    def __init__(self, program, connections=MANY_CONNECTIONS, words=(), port=None, **how):
        self.path, self.words = program.path, ["--count", str(connections), *words]
        self.how = {"stdin": subprocess.DEVNULL, **how}
        # Where it is to listen is a port that somebody named, or any. A port that was free is at times somebody else's a moment later.
        self.starts = 1 if port else 3
        self.start(port or free_port())

    def start(self, port):
        self.port = port
        words = [self.path, "serve", "--port", str(port), *self.words]
        pipe = subprocess.PIPE
        # Without a buffer, so that nothing is taken with the first line.
        self.child = subprocess.Popen(words, stdout=pipe, stderr=pipe, bufsize=0, **self.how)
        self.starts -= 1

    def __enter__(self):
        while (line := self.first_line()) != self.greeting():
            self.child.kill()
            _, errors = self.child.communicate()
            if errors != b"gate: Bind\n" or not self.starts:
                raise Failed(f"the first line is {excerpt(line)}, and then it ends with {self.child.returncode} and {excerpt(errors)}")
            self.start(free_port())
        return self

    def __exit__(self, *_):
        self.end()

    def first_line(self):
        return bytes_until(self.child.stdout, b"\n")

    def greeting(self):
        return f"listening on 127.0.0.1:{self.port}\n".encode()

    def end(self):
        self.child.kill()
        self.child.wait()
        self.close_input()
        self.child.stdout.close()
        self.child.stderr.close()

    def close_input(self):
        """Closes its standard input, if that is a pipe."""
        if self.child.stdin:
            self.child.stdin.close()
            # Else it would be closed once more.
            self.child.stdin = None

    def connection(self):
        return socket.create_connection(("127.0.0.1", self.port), SECONDS)

    def ask(self, request, is_all=False):
        """What is answered on a connection that sends this, all of it. If it is all, the client says so."""
        with self.connection() as it:
            it.sendall(request)
            if is_all:
                it.shutdown(socket.SHUT_WR)
            return read_all(it)

    def ended(self):
        """The status with which it ends by itself, and what it has printed since the first line."""
        try:
            output, errors = self.child.communicate(timeout=SECONDS)
        except subprocess.TimeoutExpired as late:
            raise Failed("it goes on after the last connection") from late
        return self.child.returncode, output, errors

    def want_end(self, word=None):
        """It ends by itself, after its last connection or with the word of a fault."""
        want("how it ended", self.ended(), (1, b"", f"gate: {word}\n".encode()) if word else (0, b"", b""))


# The ports that were given last. Of two servers that are started at the same time none has its port yet.
LAST_PORTS, PORTS_LOCK = deque(maxlen=1000), Lock()


def free_port():
    """A port that nobody has, below those that clients get."""
    while True:
        port = random.randrange(20_000, 30_000)
        with PORTS_LOCK, socket.socket() as it, suppress(OSError):
            it.bind(("127.0.0.1", port))
            if port not in LAST_PORTS:
                LAST_PORTS.append(port)
                return port


def bytes_until(stream, end):
    """What a stream without a buffer gives up to this end, or up to its own, or within SECONDS."""
    text = b""
    late = time.monotonic() + SECONDS
    while not text.endswith(end) and select.select([stream], [], [], max(0, late - time.monotonic()))[0]:
        byte = stream.read(1)
        if not byte:
            break
        text += byte
    return text


def read_all(connection):
    parts = []
    while part := connection.recv(65536):
        parts.append(part)
    return b"".join(parts)


# --- Requests and responses

JSON, PLAIN = "application/json", "text/plain; charset=utf-8"


def response_to(port, method, target, body=None):
    """The status and the body of a response, on a connection of its own."""
    with closing(HTTPConnection("127.0.0.1", port, timeout=SECONDS)) as connection:
        connection.request(method, target, body)
        given = connection.getresponse()
        return given.status, given.read().decode()


def post(body, size=None):
    size = len(body) if size is None else size
    return f"POST /deliveries HTTP/1.1\r\nHost: here\r\nContent-Length: {size}\r\n\r\n".encode() + body


def get(target):
    return f"GET {target} HTTP/1.1\r\nHost: here\r\n\r\n".encode()


def padded(line, fields, size, body=b""):
    """A request with so many fields. The last one fills its head up to so many bytes."""
    head = line + b"A: b\r\n" * (fields - 2) + b"A: "
    return head + b"c" * (size - 4 - len(head)) + b"\r\n\r\n" + body


def response(status, body, kind=JSON):
    head = f"HTTP/1.1 {status}\r\nContent-Type: {kind}\r\nContent-Length: {len(body)}\r\nConnection: close\r\n\r\n"
    return head.encode() + body


def bare(status):
    return f"HTTP/1.1 {status}\r\nContent-Length: 0\r\nConnection: close\r\n\r\n".encode()


def table_of_requests():
    """The rows of rows/requests.http: a request, and its response."""
    for row in (TOP / "rows/requests.http").read_text().splitlines():
        request, arrow, due = row.partition(" => ")
        if arrow and not row.startswith("//"):
            yield in_full(request), in_full(due) if due.startswith("HTTP/") else bare(due)


def in_full(short):
    return short.replace("|", "\r\n").replace("~", "\n").encode()
