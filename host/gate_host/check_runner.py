"""Runs one check, as a process of its own beside the host: SECONDS OUTPUT WORD.., in the folder of the clone.

It leads a process group with the command and all that it starts. Its input is a pipe from the host. When the pipe ends, the host has
died, and the group is killed. In the end the verdict goes to the host by another pipe, which the command doesn't have, and whatever is
left of the group is killed, with this process.
"""
import json
import os
import select
import signal
import subprocess
import sys
import time
from typing import List, Tuple

# Of a longer output the beginning and the end are kept.
MOST_AT_FRONT = 65536
MOST_AT_END = 196608
# How much of an output is told as the reason why bubblewrap couldn't run the check.
MOST_IN_REASON = 300
# The states of a check that has come to no verdict: bubblewrap couldn't run it, it was killed, or it or its output met a fault of the
# system. None of them is that of a status.
UNMADE, KILLED, UNRUN = NOBODYS = ("unmade", "killed", "unrun")
# How a command ends that the kernel kills, as it does when memory is out. The second is what a shell and bubblewrap say then. A check
# that ends so by itself can't be told from that.
KILLS = (-signal.SIGKILL, 128 + signal.SIGKILL)


class Output:
    """The output of a check, bounded."""

    def __init__(self, path: str):
        self.file = open(path, "wb")
        self.front = 0
        self.beginning = b""
        self.end = bytearray()
        self.dropped = 0

    def add(self, part: bytes) -> None:
        self.beginning += part[:MOST_IN_REASON - len(self.beginning)]
        room = MOST_AT_FRONT - self.front
        self.file.write(part[:room])
        self.file.flush()
        self.front += len(part[:room])
        self.end += part[room:]
        too_many = len(self.end) - MOST_AT_END
        if too_many > 0:
            self.dropped += too_many
            del self.end[:too_many]

    def close(self, last: str) -> None:
        if self.dropped:
            self.file.write(f"\n[{self.dropped} bytes are left out here]\n".encode())
        self.file.write(bytes(self.end))
        self.file.write(f"\n[{last}]\n".encode())
        self.file.close()


def run(seconds: float, output: Output, words: List[str]) -> Tuple[str, str]:
    """Runs the command to its end, and gives the state of its status and how it ended. If bubblewrap couldn't make the sandbox, nothing was
    run, and the words are its own."""
    start = time.monotonic()
    told: List[int] = []
    if words[0] == "bwrap":
        # There it tells that the command has ended. It hands the file on to nothing that it runs.
        told = [os.memfd_create("sandbox")]
        words = ["bwrap", "--json-status-fd", str(told[0]), *words[1:]]
    pipe, end = os.pipe()
    child = subprocess.Popen(words, stdin=subprocess.DEVNULL, stdout=end, stderr=subprocess.STDOUT, pass_fds=told)
    os.close(end)
    os.set_blocking(pipe, False)
    watched = [pipe, sys.stdin.fileno()]
    while child.poll() is None:
        if time.monotonic() > start + seconds:
            read(pipe, output)
            return "error", f"it took more than {seconds:g} seconds"
        # A command that has closed its output is still waited for.
        ready, _, _ = select.select(watched, [], [], 0.1)
        if sys.stdin.fileno() in ready:
            os.killpg(0, signal.SIGKILL)
        if pipe in ready and not read(pipe, output):
            watched.remove(pipe)
    read(pipe, output)
    took = f"after {time.monotonic() - start:.0f} seconds"
    if child.returncode == 1 and told and b"exit-code" not in os.pread(told[0], 65536, 0):
        return UNMADE, f"the sandbox couldn't be made: {' '.join(output.beginning.decode(errors='replace').split())}"
    if child.returncode in KILLS:
        return KILLED, f"it was killed {took}"
    if child.returncode < 0:
        return "error", f"it was ended by signal {-child.returncode} {took}"
    return ("success" if child.returncode == 0 else "failure"), f"it ended with status {child.returncode} {took}"


def read(pipe: int, output: Output) -> bool:
    """Keeps some of what the command has written by now, so that one that never stops is still looked at. False if nothing can come."""
    try:
        for _ in range(16):
            part = os.read(pipe, 65536)
            if not part:
                return False
            output.add(part)
    except BlockingIOError:
        pass
    return True


def main() -> None:
    seconds, path, *words = sys.argv[1:]
    # A check begins with none of these ignored, however the host was started.
    for number in (signal.SIGTERM, signal.SIGINT, signal.SIGHUP):
        signal.signal(number, signal.SIG_DFL)
    try:
        output = Output(path)
        state, said = run(float(seconds), output, words)
        output.close(said)
    except OSError as fault:
        state, said = UNRUN, f"it couldn't be run: {fault}"
    print(json.dumps({"state": state, "said": said}), flush=True)
    os.killpg(0, signal.SIGKILL)


if __name__ == "__main__":
    main()
