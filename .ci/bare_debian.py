"""A bare Debian 12 by debootstrap, in which `.ci/test_package` installs the package. It needs root, and a mirror of Debian."""
import os
import re
import shutil
import subprocess
import time
from http.client import HTTPException
from pathlib import Path
from urllib.error import HTTPError
from urllib.request import urlopen

from package_tree import must, ran
from programs import Failed

CODENAME = "bookworm"
# So long a kept one is used. Then a new one has the packages of its day.
MOST_SECONDS = 30 * 24 * 3600
# The mirror if this machine's apt has none of Debian 12.
MIRROR = "http://deb.debian.org/debian"
SECONDS = 900
# So long the mirror may take for one small file.
MIRROR_SECONDS = 60


def why_not():
    """Why there can be none here, or nothing."""
    if os.geteuid():
        return "it needs root"
    missing = [it for it in ("debootstrap", "unshare", "chroot") if not shutil.which(it)]
    return f"{missing[0]} isn't there" if missing else ""


def mirror():
    """The mirror of Debian from which this machine's apt takes the packages of Debian 12."""
    found = ran(["apt-get", "indextargets", "--format", "$(REPO_URI) $(CODENAME) $(COMPONENT)", "Created-By: Packages"]).stdout
    lines = [line.split() for line in found.splitlines()]
    return next((it[0].rstrip("/") for it in lines if it[1:] == [CODENAME, "main"]), MIRROR)


def mirror_fault():
    """Why the mirror can't be reached, or nothing. It is asked for the file that each mirror of Debian 12 has. Whatever it answers, it is
    reached, but for a status from 500 on, by which a proxy says that it doesn't reach it."""
    try:
        with urlopen(f"{mirror()}/dists/{CODENAME}/Release", timeout=MIRROR_SECONDS) as response:
            response.read()
    except HTTPError as fault:
        return f"the mirror can't be reached: {fault}" if fault.code >= 500 else ""
    except (OSError, HTTPException) as fault:
        return f"the mirror can't be reached: {fault}"
    return ""


def remove_all(root):
    """Removes the folder of a Debian, if it is there. What is mounted in it is unmounted before, since else that would be emptied too."""
    mounts = [line.split(" ")[4] for line in Path("/proc/self/mountinfo").read_text(encoding="utf-8").splitlines()]
    # A space and its like stand there as the octal number of the byte.
    paths = [Path(re.sub(r"\\(\d{3})", lambda it: chr(int(it[1], 8)), mount)) for mount in mounts]
    # What was mounted last lies above the rest.
    for path in reversed(paths):
        if path.is_relative_to(Path(root).resolve()):
            must(["umount", "--lazy", path])
    must(["rm", "-rf", "--one-file-system", root], timeout=SECONDS)


def kept_archive():
    """An archive with a bare Debian, which stands in the folder for such things of the user. It is made if it isn't there."""
    folder = Path(os.environ.get("XDG_CACHE_HOME") or Path.home() / ".cache") / "gate"
    archive = folder / f"{CODENAME}.tar"
    if archive.exists() and time.time() - archive.stat().st_mtime < MOST_SECONDS:
        return archive
    folder.mkdir(parents=True, exist_ok=True)
    # Two of these tests may run at the same time.
    room = folder / f".{CODENAME}-{os.getpid()}"
    made = room.with_name(f"{room.name}.tar")
    try:
        must(["debootstrap", "--variant=minbase", CODENAME, room, mirror()], timeout=SECONDS)
        must(["tar", "-C", room, "--numeric-owner", "-cf", made, "."], timeout=SECONDS)
        os.replace(made, archive)
    finally:
        made.unlink(missing_ok=True)
        remove_all(room)
    return archive


class Debian:
    """A bare Debian in a folder of its own."""

    def __init__(self, root):
        self.root = Path(root)
        self.root.mkdir()
        must(["tar", "-C", self.root, "--numeric-owner", "-xf", kept_archive()], timeout=SECONDS)
        for name in ("resolv.conf", "hosts"):
            if Path("/etc", name).exists():
                shutil.copy(Path("/etc", name), self.root / "etc" / name)

    def begin(self, script, user="root", **how):
        """Starts a script of the shell in there. What it starts ends with it, and it sees no process from outside."""
        inside = 'mount -t proc proc "$1/proc" && exec chroot "$1" su - "$2" -s /bin/sh -c "$3"'
        words = ["unshare", "--mount", "--pid", "--fork", "--kill-child", "sh", "-c", inside, "sh", str(self.root), user, script]
        environment = {"PATH": "/usr/sbin:/usr/bin:/sbin:/bin", "LC_ALL": "C.UTF-8", "DEBIAN_FRONTEND": "noninteractive"}
        given = {"stdin": subprocess.DEVNULL, "stdout": subprocess.PIPE, "stderr": subprocess.STDOUT, **how}
        return subprocess.Popen(words, env=environment, encoding="utf-8", errors="replace", **given)

    def run(self, script, user="root"):
        """What a script prints, which has to end well."""
        with self.begin(f"set -e; export DEBIAN_FRONTEND=noninteractive\n{script}", user) as child:
            try:
                said = child.communicate(timeout=SECONDS)[0]
            except subprocess.TimeoutExpired as late:
                child.kill()
                raise Failed(f"in the bare Debian this doesn't end: {script[:200]}") from late
        if child.returncode:
            raise Failed(f"in the bare Debian this ends with {child.returncode}: {script[:200]}: {said[-1500:]}")
        return said

    def files(self):
        """All files and folders that are there, but for what the kernel shows."""
        found = set()
        for folder, folders, files in os.walk(self.root):
            here = Path(folder)
            if here == self.root:
                folders[:] = [it for it in folders if it not in ("proc", "sys", "dev")]
            found.update(str((here / it).relative_to(self.root)) for it in (*folders, *files))
        return found
