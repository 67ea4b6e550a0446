"""A machine with a real sshd and a host at work, set up by the commands of docs/trusting-the-host.md, for the tests that people's machines
reach by ssh.

The real sshd has its own keys and settings, and a free port of this machine. Its account is the user who runs the tests. It takes from
clients the variables that it shouldn't, so that what keeps them out is the host alone. It needs sshd, ssh and the built program, which is
the one that GATE_PROGRAM names, or else the one in crates/gate_bot/out. Without these the tests are skipped, and say so.
"""
import os
import pwd
import re
import shlex
import shutil
import socket
import subprocess
import sys
import tempfile
import time
import unittest
from pathlib import Path

TESTS = Path(__file__).resolve().parent
TOP = TESTS.parent.parent
sys.path[:0] = [str(TESTS.parent), str(TESTS)]

from stories import ENVIRONMENT  # noqa: E402

PAGES = (TOP / "docs/trusting-the-host.md", TOP / "docs/host.md")
HEADING = "## All pushes through one account\n"
PROGRAM = Path(os.environ.get("GATE_PROGRAM") or TOP / "crates/gate_bot/out/gate_bot")
ACCOUNT = pwd.getpwuid(os.geteuid()).pw_name
# sshd isn't on the PATH of most users.
SSHD = shutil.which("sshd", path=f"{os.environ['PATH']}:/usr/sbin:/usr/local/sbin:/sbin")
SSH, KEYGEN, SCP, SFTP = (shutil.which(name) for name in ("ssh", "ssh-keygen", "scp", "sftp"))
SECONDS = 60

# The lines of the page that need root or a built clone. The test makes what they make.
LEFT_OUT = (
    "useradd --create-home --shell /bin/sh --password '*' git",
    "install -d -o git -g git -m 700 /srv/project.git",
    "gate/gate install /usr/local/lib/gate",
    "systemctl enable --now gate-host",
)
PEOPLE = ("alice", "eve")
# A key that the page doesn't have: one without `restrict`.
FREE = "free"
SETTINGS_OF_SSHD = """\
ListenAddress 127.0.0.1:{port}
HostKey {room}/host
AuthorizedKeysFile {room}/home/.ssh/authorized_keys
PidFile none
UsePAM no
StrictModes no
PasswordAuthentication no
KbdInteractiveAuthentication no
PermitRootLogin forced-commands-only
Subsystem sftp internal-sftp
AllowTcpForwarding yes
AllowAgentForwarding yes
PermitTunnel yes
PermitUserRC yes
AcceptEnv GL_USER GIT_* LANG LC_* SSH_ORIGINAL_COMMAND
SetEnv "HOME={room}/home" "PATH={path}"
"""
SETTINGS_OF_SSH = """\
Host machine
    HostName 127.0.0.1
    Port {port}
    IdentityFile {room}/{person}
    IdentitiesOnly yes
    IdentityAgent none
    StrictHostKeyChecking no
    UserKnownHostsFile /dev/null
    LogLevel ERROR
"""


def missing():
    """Why there can be no tests with a real sshd, or nothing."""
    for what, found in (("sshd", SSHD), ("ssh", SSH), ("ssh-keygen", KEYGEN), ("scp", SCP), ("sftp", SFTP)):
        if not found:
            return f"{what} isn't installed"
    return "" if os.access(PROGRAM, os.X_OK) else f"there is no built program {PROGRAM}"


def blocks_of_page(heading=HEADING):
    """The commands below a heading of one of the pages: those that set it up, and those that people type."""
    texts = [page.read_text(encoding="utf-8").partition(heading)[2] for page in PAGES]
    rest = next(filter(None, texts), None)
    if rest is None:
        raise AssertionError(f"no page has the heading {heading}")
    setting_up, typed = re.findall(r"```sh\n(.*?)```", re.split(r"\n##? ", rest)[0], re.DOTALL)
    return setting_up, typed


class WithSshd(unittest.TestCase):
    """A real sshd, and a host that guards a repository, set up by the commands of the page."""

    # Who has a key besides the people of the page.
    others = (FREE,)

    @classmethod
    def setUpClass(cls):
        if missing():
            print(f"no test with a real sshd: {missing()}", file=sys.stderr)
            raise unittest.SkipTest(missing())
        cls.room = Path(tempfile.mkdtemp())
        cls.addClassCleanup(shutil.rmtree, cls.room, ignore_errors=True)
        # sshd looks at the folder as another user before it believes who is there.
        cls.room.chmod(0o755)
        cls.repository, cls.home, cls.tools = cls.room / "srv/project.git", cls.room / "home", cls.room / "tools"
        for name in ("srv", "home", "tools", "units", "people", "lib"):
            (cls.room / name).mkdir()
        cls.path = f"{Path(sys.executable).parent}:{os.environ['PATH']}"
        cls.make_tool("su", f'HOME={cls.home} PATH="{cls.path}" exec sh -c "$3"')
        cls.make_tool("ssh", f'exec {SSH} -F "{cls.room}/$PERSON.ssh" -o User={ACCOUNT} "$@"')
        for name in ("host", *cls.others, *PEOPLE):
            cls.must_run(KEYGEN, "-q", "-t", "ed25519", "-N", "", "-C", name, "-f", cls.room / name)
        cls.set_up()
        cls.start_sshd()
        cls.start_host()

    @classmethod
    def make_tool(cls, name, text):
        path = cls.tools / name
        path.write_text(f"#!/bin/sh\n{text}\n", encoding="utf-8")
        path.chmod(0o755)

    @classmethod
    def must_run(cls, *command, **more):
        ran = cls.run_it(*command, **more)
        if ran.returncode != 0:
            raise AssertionError(f"{command} ends with {ran.returncode}: {ran.stdout}{ran.stderr}")
        return ran.stdout

    @classmethod
    def run_it(cls, *command, person="alice", at=None, given="", more=()):
        """Runs a command on the machine of a person, to its end."""
        environment = {
            **ENVIRONMENT, "PATH": f"{cls.tools}:{cls.path}", "PERSON": person, "GIT_AUTHOR_NAME": person, "GIT_COMMITTER_NAME": person,
            **dict(more),
        }
        return subprocess.run(
            [str(it) for it in command], env=environment, cwd=at or cls.room / "people", input=given, capture_output=True,
            encoding="utf-8", timeout=SECONDS, check=False,
        )

    @classmethod
    def set_up(cls):
        """Types the commands of the page on the machine, with other paths, and with the keys of people in it."""
        lines = blocks_of_page()[0].splitlines()
        if [line for line in lines if line in LEFT_OUT] != list(LEFT_OUT):
            raise AssertionError(f"the page hasn't these lines, each once and in this order: {LEFT_OUT}")
        text = "\n".join(line for line in lines if line not in LEFT_OUT)
        for name in PEOPLE:
            key = (cls.room / f"{name}.pub").read_text(encoding="utf-8").strip()
            text = cls.changed(text, f"ssh-ed25519 AAAA... {name}", key)
        for before, after in (("/usr/local/lib/gate", "lib"), ("/srv/", "srv/"), ("/etc/systemd/system", "units")):
            text = cls.changed(text, before, f"{cls.room}/{after}")
        (cls.room / "gate").symlink_to(TOP)
        shutil.copy2(PROGRAM, cls.room / "lib/gate")
        cls.must_run("bash", "-e", "-c", text, at=cls.room)
        with open(cls.home / ".ssh/authorized_keys", "a", encoding="utf-8") as keys:
            for name in {FREE} & {*cls.others}:
                keys.write('command="false" ' + (cls.room / f"{name}.pub").read_text(encoding="utf-8"))
        settings = cls.repository / "gate/settings"
        kept = cls.changed(settings.read_text(encoding="utf-8"), "tick_seconds = 10\n", "tick_seconds = 0.4\n")
        settings.write_text(cls.changed(kept, "look_seconds = 1\n", "look_seconds = 0.2\n"), encoding="utf-8")

    @staticmethod
    def changed(text, before, after):
        if before not in text:
            raise AssertionError(f"there is no {before} in {text}")
        return text.replace(before, after)

    @classmethod
    def start_sshd(cls):
        """Starts sshd on a free port. If somebody takes that meanwhile, on another one."""
        if os.geteuid() == 0:
            # Here the part of sshd that strangers speak to is locked in.
            Path("/run/sshd").mkdir(mode=0o755, exist_ok=True)
        for _ in range(5):
            with socket.create_server(("127.0.0.1", 0)) as server:
                cls.port = server.getsockname()[1]
            cls.write_settings()
            cls.start("sshd.log", SSHD, "-D", "-e", "-f", cls.room / "sshd")
            cls.comes_about(lambda: re.search("Server listening|Cannot bind", cls.log_of("sshd")))
            if "Server listening" in cls.log_of("sshd"):
                return
        raise AssertionError(f"sshd doesn't start: {cls.log_of('sshd')}")

    @classmethod
    def write_settings(cls):
        given = {"room": cls.room, "port": cls.port, "path": cls.path}
        (cls.room / "sshd").write_text(SETTINGS_OF_SSHD.format(**given), encoding="utf-8")
        for name in (*cls.others, *PEOPLE):
            (cls.room / f"{name}.ssh").write_text(SETTINGS_OF_SSH.format(person=name, **given), encoding="utf-8")

    @classmethod
    def log_of(cls, name):
        return (cls.room / f"{name}.log").read_text(encoding="utf-8", errors="replace")

    @classmethod
    def start_host(cls):
        """Starts the host by the line of the unit that the page has put to the others."""
        unit = (cls.room / "units/gate-host.service").read_text(encoding="utf-8")
        line = re.search(r"^ExecStart=(.*)$", unit, re.MULTILINE)[1]
        command = shlex.split(cls.changed(cls.changed(line, "/usr/local/lib/gate", f"{cls.room}/lib"), "/srv/", f"{cls.room}/srv/"))
        cls.start("host.log", *command)

    @classmethod
    def start(cls, log, *command):
        """Starts what runs beside the tests. It ends with them, even if they are killed, since a pipe ends then."""
        words = ["sh", "-c", '"$@" & read -r _; kill $!; wait $!', "sh", *(str(it) for it in command)]
        environment = {"HOME": str(cls.home), "PATH": cls.path}
        with open(cls.room / log, "wb") as said:
            process = subprocess.Popen(words, env=environment, stdin=subprocess.PIPE, stdout=said, stderr=said)
        cls.addClassCleanup(process.wait, SECONDS)
        cls.addClassCleanup(process.stdin.close)

    @classmethod
    def comes_about(cls, is_so):
        late = time.monotonic() + SECONDS
        while not is_so():
            if time.monotonic() > late:
                return False
            time.sleep(0.05)
        return True

    # What people do

    def ssh(self, *words, person="alice", **more):
        return self.run_it("ssh", "git@machine", *words, person=person, **more)

    def log_says(self, change, *texts):
        """Waits until the log of a change has these texts."""
        report = self.repository / f"gate/reports/log-{change}"

        def is_so():
            found = report.read_text(encoding="utf-8") if report.exists() else ""
            return all(it in found for it in texts)
        if not self.comes_about(is_so):
            self.fail(f"the log of change {change} doesn't come to say {texts}: {self.log_of('host')}\n{self.log_of('sshd')}")

    def commit(self, person):
        """A new clone with a commit."""
        place = Path(tempfile.mkdtemp(dir=self.room / "people"))
        self.must_run("git", "clone", "--quiet", "git@machine:project.git", place, person=person)
        (place / "greeting").write_text(f"hello from {place}\n", encoding="utf-8")
        self.must_run("git", "add", "greeting", at=place)
        self.must_run("git", "commit", "--quiet", "-m", "A greeting", at=place, person=person)
        return place

    def push(self, person, change, **more):
        """A commit in a new clone, pushed as a change."""
        place = self.commit(person)
        self.must_run("git", "push", "--quiet", "origin", f"HEAD:change/{change}", at=place, person=person, **more)
        return place

    def main(self):
        return self.must_run("git", "--git-dir", self.repository, "rev-parse", "main").strip()
