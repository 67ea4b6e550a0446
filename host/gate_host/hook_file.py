"""The file of the hook: what `init` writes there, and by what a hook is known to run this host."""
import os
import re
import shlex
import subprocess
import sys
from pathlib import Path
from typing import List, Optional

MARK = "# Made by gate-host init."
HERE = Path(__file__).resolve().parent
# What the hook runs: the file beside this package, or the package if it was installed without it.
SCRIPT = HERE.with_name("gate-host") if HERE.with_name("gate-host").exists() else HERE / "__main__.py"
# If Python or the host isn't there any more, others of these names are looked for; without any, a push gets one line and no traceback.
FORM = f"""\
#!/bin/sh
{MARK}
python={{python}}
host={{host}}
[ -x "$python" ] || python=$(command -v python3)
[ -r "$host" ] && [ -x "$python" ] && exec "$python" "$host" hook --repository .
# One that was installed knows its own Python.
host=$(command -v gate-host) && exec "$host" hook --repository .
echo "gate: this push can't be looked at: its Python or gate-host has moved. The owner runs gate-host init here again." >&2
exit 1
"""
# So `init` wrote it before.
EARLIER = re.compile(rf"#!/bin/sh\n{re.escape(MARK)}\nexec (.+) hook --repository \.\n")
PRESENT = re.compile(re.escape(FORM).replace(re.escape("{python}"), "([^\n]+)").replace(re.escape("{host}"), "([^\n]+)"))


def hook_command() -> str:
    """By what a hook of the owner's own is known to run this."""
    return f"{shlex.quote(str(SCRIPT))} hook"


def hook_text(python: str) -> str:
    """The hook that `init` writes."""
    return FORM.format(python=shlex.quote(python), host=shlex.quote(str(SCRIPT)))


def words_of_init(text: str) -> Optional[List[str]]:
    """The Python and the host that a hook runs, if it is one as `init` writes it and nothing more."""
    found = EARLIER.fullmatch(text) or PRESENT.fullmatch(text)
    words = shlex_words(" ".join(found.groups())) if found else []
    forms = (FORM, f"#!/bin/sh\n{MARK}\nexec {{python}} {{host}} hook --repository .\n")
    is_so = len(words) == 2 and text in [it.format(python=shlex.quote(words[0]), host=shlex.quote(words[1])) for it in forms]
    return words if is_so else None


def is_present(text: str) -> bool:
    """Whether `init` writes hooks of this form today."""
    return PRESENT.fullmatch(text) is not None


def is_hook(text: str) -> bool:
    """Whether a hook runs this: it is that of `init`, with any Python, or it has the command on a line that is no comment."""
    words = words_of_init(text)
    if words or MARK in text.split("\n"):
        return words is not None and words[1] == str(SCRIPT)
    return any(hook_command() in line and not line.lstrip().startswith("#") for line in text.split("\n"))


def shlex_words(text: str) -> List[str]:
    """The words of a text as the shell reads them, or none if it has an open quotation."""
    try:
        return shlex.split(text)
    except ValueError:
        return []


def is_for_all(path: Path) -> bool:
    """Whether everybody can read and run a file."""
    found = path.resolve()
    return found.stat().st_mode & 0o005 == 0o005 and all(folder.stat().st_mode & 0o001 for folder in found.parents)


def python_for_all() -> str:
    """A Python that whoever pushes can run, if there is one; else the one that runs this."""
    for name in (sys.executable, "/usr/bin/python3", "/usr/local/bin/python3"):
        if os.access(name, os.X_OK) and is_for_all(Path(name)):
            ran = subprocess.run([name, "-c", "import sys; sys.exit(sys.version_info < (3, 9))"], check=False, timeout=60)
            if ran.returncode == 0:
                return name
    return sys.executable
