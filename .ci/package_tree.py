"""What `.ci/test_package` packages: copies of this tree, each a checkout of its own with a commit, a program, its mark and its verdicts."""
import hashlib
import os
import re
import shutil
import subprocess
from pathlib import Path

from programs import TOP, Failed

VERSION = re.search(r"^## (\d+\.\d+\.\d+)", (TOP / "CHANGELOG.md").read_text(encoding="utf-8"), re.MULTILINE)[1]
# The crates whose sources a tree has. More say nothing more here.
CRATES = ("gate_bot", "gate_text", "gate_words")
KIT = "stub-kit-1 logic 0"
COMPILER = "a compiler"
# When the commit of a tree was made: a day in the past, so that a time taken from the clock is never equal to it.
MADE = 1_750_000_000
# A program that says what it was given, and ends with a status of its own.
STUB = f"""\
#!/bin/sh
case ${{1-}} in
--help | -h | help) echo "gate {VERSION}"; echo "The help of the stub."; exit 0 ;;
esac
printf '<%s>' "$@"
exit 7
"""
# What a command may take before it counts as one that never ends. On two processors much runs beside it, and goes first.
SECONDS = 1200


def ran(words, **how):
    """What a command gives, as texts."""
    given = {"stdin": subprocess.DEVNULL, "capture_output": True, "encoding": "utf-8", "errors": "replace", "timeout": SECONDS, **how}
    return subprocess.run([str(it) for it in words], check=False, **given)


def must(words, **how):
    """What a command prints, which has to end well."""
    found = ran(words, **how)
    if found.returncode:
        raise Failed(f"{' '.join(map(str, words))[:300]} ends with {found.returncode}: {(found.stdout + found.stderr)[-1500:]}")
    return found.stdout


def crates_of_program():
    """The crates that the program is made of, by crates.txt."""
    needs = {}
    for line in (TOP / "crates.txt").read_text(encoding="utf-8").splitlines():
        name, colon, below = line.partition(":")
        if colon and not line.startswith("#"):
            needs[name] = below.split()
    found, to_do = set(), ["gate_bot"]
    while to_do:
        it = to_do.pop()
        if it in needs and it not in found:
            found.add(it)
            to_do += needs[it]
    return found


def verdict_of(crate):
    """A verdict of a proof, another one for each crate."""
    return f"logic=proved functions={len(crate)} sum={sum(map(ord, crate))}"


class Tree:
    """A copy of this tree in a folder of its own, which is a checkout with one commit, in which the program is built."""

    def __init__(self, folder, program=None, source=TOP):
        self.folder = Path(folder)
        self.folder.mkdir(parents=True)
        folders = ("out", ".git", "__pycache__", "must-fail", "./host/tests", "./host/planted", "./bench", "./crates")
        left_out = [f"--exclude={it}" for it in folders]
        must(["tar", "-C", source, *left_out, "-cf", self.folder / "it.tar", ".", *(f"crates/{it}" for it in CRATES)])
        # Else the files are those of the owner of the tree when root unpacks them.
        must(["tar", "-C", self.folder, "--no-same-owner", "-xf", self.folder / "it.tar"])
        (self.folder / "it.tar").unlink()
        self.git("init", "--quiet", "--initial-branch=main")
        self.commit("All")
        self.out = self.folder / "crates/gate_bot/out"
        self.out.mkdir()
        self.put_program(program)
        self.prove()

    def git(self, *words):
        when = f"@{MADE} +0000"
        environment = {
            **{name: value for name, value in os.environ.items() if not name.startswith("GIT_")}, "GIT_CONFIG_GLOBAL": "/dev/null",
            "GIT_AUTHOR_DATE": when, "GIT_COMMITTER_DATE": when,
        }
        who = ["-c", "user.name=x", "-c", "user.email=x@localhost"]
        return must(["git", *who, "-C", self.folder, *words], env=environment).strip()

    def commit(self, message):
        self.git("add", "--all")
        self.git("commit", "--quiet", "--allow-empty", "-m", message)

    def head(self):
        return self.git("rev-parse", "HEAD")

    @property
    def program(self):
        return self.out / "gate_bot"

    def put_program(self, program):
        if program:
            shutil.copy(program, self.program)
        else:
            self.program.write_text(STUB, encoding="utf-8")
        self.program.chmod(0o755)

    def prove(self, crates=None):
        """Marks the program, and leaves a verdict of each crate, as a build of it does. It proves nothing."""
        lines = "".join(f"{it} {verdict_of(it)}\n" for it in (crates_of_program() if crates is None else crates))
        script = """
            source .ci/built.sh
            sources=$(sources .)
            note_verdicts crates/gate_bot/out/gate.verdicts "$sources" "$2"
            mark crates/gate_bot/out/gate_bot crates/gate_bot/out/gate.built "$1" "$sources"
        """
        must(["bash", "-euc", script, "bash", KIT, COMPILER], cwd=self.folder, stdin=None, input=lines)

    def sum_of_sources(self):
        """The sum that PROVED has to tell: of the lines of sha256sum for each file, by their names."""
        folders = ("src", "specs", "proofs")
        files = [it for name in folders for it in self.folder.glob(f"crates/*/{name}/**/*") if it.is_file() and not it.is_symlink()]
        names = sorted(str(it.relative_to(self.folder)).encode() for it in [*files, self.folder / "crates.txt"])
        lines = [f"{sum_of(self.folder / name.decode())}  {name.decode()}\n" for name in names]
        return f"{hashlib.sha256(''.join(lines).encode()).hexdigest()}"

    def package(self, *words, **how):
        return ran([self.folder / "deploy/package", *words], **how)


def sum_of(path):
    return hashlib.sha256(Path(path).read_bytes()).hexdigest()
