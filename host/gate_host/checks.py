"""The checks: commands that are run in a clone of a staged commit, one after the other, or side by side in a clone each.

A clone is made for the commit and thrown away after. It has no branches and no way into the guarded repository.

Only a check itself says that it has failed. One that was killed, whose clone or sandbox couldn't be made, or that found the disk full, says
nothing of the commit. It is nobody's fault but the host's, and is tried again in a new clone.
"""
import errno
import json
import os
import re
import secrets
import signal
import subprocess
import sys
import time
from contextlib import suppress
from dataclasses import dataclass, field
from pathlib import Path
from typing import Callable, Dict, Iterator, List, Mapping, Optional, Sequence, Tuple, Union

from .check_runner import KILLED, NOBODYS, UNRUN
from .git import GitFailed, clean_environment
from .core.broken import MAIN
from .core.known import Test
from .faults import Trouble
from .places import Places
from .ports import Fault, Result
from .repository import Repository
from .sandbox import environment_within, look_again, sandbox_of, words_before
from .settings import Settings

RUNNER = Path(__file__).resolve().with_name("check_runner.py")
# The outputs of so many checks are kept.
MOST_OUTPUTS = 500
SECONDS_FOR_CLONE = 600
# So often a check is tried that comes to no verdict. With the usual pauses that takes more than a minute, in which most of what goes by
# has gone by. With more attempts people would wait long for what never goes by, as a commit that git can't check out.
MOST_ATTEMPTS = 5
# The pauses between the attempts grow up to this.
MOST_SECONDS_OF_PAUSE = 60.0
# If a check fails and there isn't even so much room beside its clone, the disk is full.
LEAST_ROOM = 1048576
# Faults of the system, as a full disk. They end when somebody has mended them, so they are tried again until the batch has no more time.
OF_SYSTEM = (
    errno.ENOSPC, errno.EDQUOT, errno.EIO, errno.EMFILE, errno.ENFILE, errno.ENOMEM, errno.EROFS, errno.EAGAIN,
)


@dataclass
class Clone:
    """A clone of a commit, with a folder for what is passing, and the checks that have begun in it."""

    folder: Path
    begun: List[str] = field(default_factory=list)

    @property
    def files(self) -> Path:
        return self.folder / "clone"

    @property
    def scratch(self) -> Path:
        """What is /tmp in the sandbox."""
        return self.folder / "tmp"


@dataclass(frozen=True)
class Running:
    """A check that runs. One that has succeeded before runs again for those after it, which may need what it makes."""

    name: str
    is_again: bool
    process: "subprocess.Popen[bytes]"


@dataclass
class Lane:
    """Checks of a commit that run one after the other in one clone: all of them, or only one."""

    test: Test
    clone: Optional[Clone] = None
    running: Optional[Running] = None
    # The first check that has no result, and where its output goes.
    wanted: str = ""
    output: str = ""
    # How often that came to no verdict, and by which fault, if that lasts.
    attempts: int = 0
    fault: Optional[Fault] = None
    pause: float = 0.0
    next_start: float = 0.0
    # Whether a check was given up since there is no clone. The others have no better luck then.
    is_hopeless: bool = False


@dataclass
class Tested:
    """A commit that is tested. Whether its checks run side by side is settled when they begin."""

    test: Test
    is_parallel: bool
    lanes: Dict[str, Lane] = field(default_factory=dict)

    def lane_of(self, name: str) -> Lane:
        return self.lanes.setdefault(name if self.is_parallel else "", Lane(self.test))


class Checks:
    """What is tested at present. The journal says what should be; after a start all checks without a result begin anew."""

    def __init__(self, places: Places, repository: Repository, bring: Callable[[Test], None]):
        self.places = places
        self.repository = repository
        # What has a commit that is to be tested come into the mirror.
        self.bring = bring
        self.tested: Dict[str, Tested] = {}
        # What was found out since the last look.
        self.found: List[Union[Result, Fault]] = []
        self.retry_seconds = 0.0

    def clear(self) -> None:
        """Removes the clones that an earlier host has left. What ran there ends by itself."""
        remove_tree(self.places.clones)
        # So they were called by the first version.
        remove_tree(self.places.records / "worktrees")
        self.places.clones.mkdir(mode=0o700, exist_ok=True)

    def lanes(self) -> Iterator[Lane]:
        for tested in self.tested.values():
            yield from tested.lanes.values()

    def lasting(self) -> List[Fault]:
        """The faults because of which checks are tried again. Each lasts until its check has a result."""
        return [lane.fault for lane in self.lanes() if lane.fault]

    def ended(self, wanted: Sequence[Test]) -> List[Union[Result, Fault]]:
        """The checks that have ended since the last look, and those that will be tried again. What is tested and isn't wanted any more is
        stopped."""
        for branch in list(self.tested):
            if self.tested[branch].test not in wanted:
                self.stop(branch)
        for lane in self.lanes():
            result = self.result_of(lane)
            if result:
                self.found.append(result)
        found, self.found = self.found, []
        return [it for it in found if it.test in wanted]

    def begin(self, test: Test, settings: Settings, done: Mapping[str, str]) -> None:
        """Starts what is due of the checks of a commit. It makes one clone at the most, so that other news isn't held up by several."""
        self.retry_seconds = settings.retry_seconds
        left = [name for name in settings.checks if name not in done]
        if test.branch in self.tested and self.tested[test.branch].test != test:
            self.stop(test.branch)
        tested = self.tested.setdefault(test.branch, Tested(test, settings.parallel))
        self.drop_what_is_over(tested, left)
        for name in left if tested.is_parallel else left[:1]:
            lane = tested.lane_of(name)
            if lane.running or time.monotonic() < lane.next_start:
                continue
            is_without = lane.clone is None
            self.go_on(lane, name, () if tested.is_parallel else tuple(settings.checks), settings, done)
            if is_without:
                return

    def drop_what_is_over(self, tested: Tested, left: List[str]) -> None:
        """Removes the clones in which nothing is left to run."""
        for name, lane in list(tested.lanes.items()):
            if not lane.running and not (name in left if tested.is_parallel else left):
                self.drop(lane)
                del tested.lanes[name]

    def go_on(self, lane: Lane, wanted: str, in_order: Sequence[str], settings: Settings, done: Mapping[str, str]) -> None:
        """Starts the check that is wanted. In a new clone those before it in the order that have succeeded are run again first, since it
        may need what they make. They keep their results."""
        if lane.clone and wanted in lane.clone.begun:
            # It has ended there, and how it did was lost on the way.
            self.drop(lane)
        try:
            if lane.wanted != wanted:
                lane.wanted, lane.output = wanted, output_of(lane.test, wanted, settings)
                lane.attempts, lane.fault, lane.pause = 0, None, 0.0
                # An older history may have left one under this name.
                (self.places.outputs / lane.output).unlink(missing_ok=True)
            clone = self.clone_of(lane)
            if clone:
                before = [name for name in in_order if done.get(name) == "success"]
                self.start(lane, clone, next(name for name in [*before, wanted] if name not in clone.begun), settings)
        except (OSError, Trouble) as fault:
            self.found.append(self.fault_of(lane, f"it can't be started: {fault}"))

    def clone_of(self, lane: Lane) -> Optional[Clone]:
        """The clone of a lane. It is made if there is none; if that fails, there is still none."""
        if lane.clone is None:
            lane.clone = Clone(self.places.clones / f"{lane.test.branch}-{secrets.token_hex(4)}")
            try:
                self.check_out(lane.test, lane.clone)
                lane.is_hopeless = False
            except (GitFailed, OSError) as fault:
                self.found.append(self.fault_of(lane, f"the commit can't be checked out: {fault}", is_without=True))
        return lane.clone

    def check_out(self, test: Test, clone: Clone) -> None:
        for folder in (clone.folder, clone.scratch):
            folder.mkdir(mode=0o700)
        self.bring(test)
        why_not = self.repository.check_out(test.commit, clone.files, SECONDS_FOR_CLONE)
        if why_not:
            remove_tree(clone.files)
            raise GitFailed(why_not + lack_of_room(clone.folder, self.repository.room_for(test.commit)))

    def start(self, lane: Lane, clone: Clone, name: str, settings: Settings) -> None:
        """Starts the check that is wanted, or one before it."""
        self.drop_old_outputs()
        is_again = name != lane.wanted
        output = f"{output_of(lane.test, name, settings)}-again" if is_again else lane.output
        is_within = sandbox_of(settings).is_on
        words = words_before(self.places, settings, clone.files, clone.scratch) if is_within else []
        environment = environment_of(lane.test, name)
        clone.begun.append(name)
        process = subprocess.Popen(
            [sys.executable, str(RUNNER), f"{settings.check_seconds:g}", str(self.places.outputs / output), *words, "/bin/sh", "-c",
             settings.checks[name]],
            cwd=clone.files, env=environment_within(environment) if is_within else environment, stdin=subprocess.PIPE,
            stdout=subprocess.PIPE, start_new_session=True,
        )
        lane.running = Running(name, is_again, process)

    def result_of(self, lane: Lane) -> Union[Result, Fault, None]:
        """How the check of a lane has ended, if it has. One that has succeeded again has its result already."""
        running = lane.running
        if running is None or not has_ended(running.process):
            return None
        lane.running = None
        state, said = verdict_in(end_group(running.process))
        if running.is_again and state != "success":
            return self.fault_of(lane, f"the check {running.name} before it was run again, and didn't succeed this time: {said}")
        if running.is_again:
            return None
        if state == "failure" and lane.clone:
            # It may have failed since it couldn't write.
            lack = lack_of_room(lane.clone.folder, LEAST_ROOM)
            state, said = (UNRUN if lack else state), said + lack
        if state in NOBODYS:
            return self.fault_of(lane, said)
        lane.fault = None
        return Result(lane.test, running.name, state, said, lane.output)

    def fault_of(self, lane: Lane, said: str, is_without: bool = False) -> Union[Result, Fault]:
        """What becomes of a check that came to no verdict. It is tried again after a pause, or given up if it was tried often enough."""
        self.drop(lane)
        look_again()
        is_systems = is_of_system(said)
        lane.attempts += not is_systems
        if is_systems or (lane.attempts < MOST_ATTEMPTS and not lane.is_hopeless):
            lane.pause = min(2 * lane.pause, max(self.retry_seconds, MOST_SECONDS_OF_PAUSE)) or self.retry_seconds
            lane.next_start = time.monotonic() + lane.pause
            lane.fault = Fault(lane.test, lane.wanted, said)
            return lane.fault
        often = "once" if lane.attempts == 1 else f"{lane.attempts} times"
        said = f"{said} (tried {often}; a fault of the host)"
        # People are told the reason, also if it can't be written there.
        with suppress(OSError), open(self.places.outputs / lane.output, "a", encoding="utf-8") as output:
            output.write(f"[{said}]\n")
        lane.fault, lane.is_hopeless = None, is_without
        return Result(lane.test, lane.wanted, "error", said, lane.output)

    def drop(self, lane: Lane) -> None:
        """Ends what runs in a lane, and removes its clone."""
        running, clone = lane.running, lane.clone
        lane.running = lane.clone = None
        if running:
            end_group(running.process)
        if clone:
            # What can't be removed now is removed at the next start.
            with suppress(OSError):
                remove_tree(clone.folder)

    def stop(self, branch: str) -> None:
        """Ends what runs for a branch, and removes its clones."""
        tested = self.tested.pop(branch, None)
        for lane in tested.lanes.values() if tested else ():
            self.drop(lane)

    def close(self) -> None:
        for branch in list(self.tested):
            self.stop(branch)

    def drop_old_outputs(self) -> None:
        outputs = sorted(self.places.outputs.iterdir(), key=lambda path: path.stat().st_mtime)
        for path in outputs[:-MOST_OUTPUTS]:
            path.unlink()


def output_of(test: Test, name: str, settings: Settings) -> str:
    """The name of the file with the output of a check."""
    place = list(settings.checks).index(name)
    return f"{test.batch}-{place}-{re.sub(r'[^A-Za-z0-9._-]', '_', name)[:80]}{'-on-main' if test.branch == MAIN else ''}"


def lack_of_room(folder: Path, size: int) -> str:
    """Says so if the system doesn't take so many bytes in a folder. Git often doesn't say why it can't write a file. How much of the disk
    is free wouldn't tell it either: a user may have less."""
    try:
        # A new file: a check may have left something of this name that is none.
        with open(folder / "room", "xb") as file:
            (folder / "room").unlink()
            os.posix_fallocate(file.fileno(), 0, size)
    except OSError as fault:
        return f" ({size} bytes are needed: {fault.strerror})" if fault.errno in OF_SYSTEM else ""
    return ""


def is_of_system(said: str) -> bool:
    """Whether a fault is one of the system. Git tells such faults in words, and its words may have names of files, by which somebody can
    have a commit that can't be checked out wait until its batch has no more time."""
    return any(os.strerror(fault) in said for fault in OF_SYSTEM)


def verdict_in(written: bytes) -> Tuple[str, str]:
    """The verdict that the runner of a check has written. If it has written none, it was killed."""
    try:
        verdict = json.loads(written)
    except ValueError:
        return KILLED, "it was killed"
    return str(verdict["state"]), str(verdict["said"])


def remove_tree(path: Path) -> None:
    """Removes a folder with all that it has, however deep, also if some of it was made unwritable. What is of somebody else stays."""
    if path.is_symlink():
        path.unlink()
    elif path.exists():
        for command in (["chmod", "-R", "u+rwX"], ["rm", "-rf"]):
            subprocess.run([*command, "--", str(path)], stdin=subprocess.DEVNULL, capture_output=True, check=False)


def has_ended(process: "subprocess.Popen[bytes]") -> bool:
    """Whether a process has ended. It isn't taken off the system yet, so its number still names its group and no other."""
    return os.waitid(os.P_PID, process.pid, os.WEXITED | os.WNOHANG | os.WNOWAIT) is not None


def end_group(process: "subprocess.Popen[bytes]") -> bytes:
    """Kills a process with its group, and takes it off the system. Gives what it has written, which is short."""
    with suppress(ProcessLookupError):
        os.killpg(process.pid, signal.SIGKILL)
    process.wait()
    if process.stdin is None or process.stdout is None:
        return b""
    process.stdin.close()
    os.set_blocking(process.stdout.fileno(), False)
    with process.stdout:
        return process.stdout.read() or b""


def environment_of(test: Test, name: str) -> Dict[str, str]:
    """What a check is told. Git in it sees no object in the place of another."""
    return {
        **clean_environment(), "GIT_NO_REPLACE_OBJECTS": "1", "GATE_CHECK": name, "GATE_COMMIT": test.commit, "GATE_BRANCH": test.branch,
    }
