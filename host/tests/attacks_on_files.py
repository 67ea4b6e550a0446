"""Attacks by a real user of the system who may write the files of a guarded repository. `.ci/test_attacks` plays them, and each fails if it
succeeds.
"""
import os
import time
from pathlib import Path

from stories import GIT, must, want
from users import PYTHON, Village, environment_of

# Tries each of some things that a user may want to do with the files of the host, and says which could be done.
TRY_ALL = """
import os, sys
gate = sys.argv[1]
def can(name, what):
    try:
        what()
    except OSError:
        return
    print(name)
def write(path):
    with open(path, "a") as file:
        file.write("games reviewer\\n")
for name in ("settings", "roles", "identity", "reports/queue", "records/journal.db"):
    can(f"write {name}", lambda: write(f"{gate}/{name}"))
    can(f"remove {name}", lambda: os.unlink(f"{gate}/{name}"))
can("make a file", lambda: write(f"{gate}/new"))
can("list the spool", lambda: os.listdir(f"{gate}/spool"))
can("list the records", lambda: os.listdir(f"{gate}/records"))
can("read the journal", lambda: open(f"{gate}/records/journal.db"))
for name in sys.argv[2:]:
    for of_note in (name, f".{name}"):
        can("remove a note", lambda: os.unlink(f"{gate}/spool/{of_note}"))
        can("remove a note", lambda: os.rmdir(f"{gate}/spool/{of_note}"))
        can("move a note", lambda: os.rename(f"{gate}/spool/{of_note}", f"{gate}/spool/{name}x"))
"""


def share(village: Village) -> None:
    """All may write the files of the repository, but for those of the host."""
    # A host at work would end as soon as it sees the folder open.
    village.stop()
    village.must_git(village.owner, village.repository, "config", "core.sharedRepository", "0666")
    for folder, folders, files in os.walk(village.repository):
        if Path(folder) == village.repository:
            folders.remove("gate")
        for name in (".", *folders, *files):
            path = Path(folder, name)
            path.chmod(path.stat().st_mode | (0o077 if path.is_dir() else 0o066))
    # As the start and `init` ask for it.
    village.initialise_again()
    village.start()


def script_names_commands(village: Village) -> list:
    """The attacker names commands wherever git looks for some, and gives the marks that they leave. Each would make a reviewer of him."""
    share(village)
    marks = []
    config = village.repository / "config"
    settings = []
    for number, (name, value) in enumerate((
        ("remote.evil.uploadpack", "{}"), ("filter.evil.smudge", "{}; cat"), ("filter.evil.clean", "{}; cat"), ("core.fsmonitor", "{}"),
        ("core.sshCommand", "{}"), ("core.alternateRefsCommand", "{}"), ("merge.evil.driver", "{}"), ("core.pager", "{}"),
        ("uploadpack.packObjectsHook", "{}"), ("gc.recentObjectsHook", "{}"), ("diff.evil.textconv", "{}"), ("core.editor", "{}"),
    )):
        mark = village.homes[village.owner] / f"run-{number}"
        command = f"touch {mark}; echo {village.attacker} reviewer >>{village.repository}/gate/roles"
        settings.append((name, value.format(f"sh -c '{command}'")))
        marks.append(mark)
    for name, value in (("core.repositoryFormatVersion", "1"), ("extensions.partialClone", "evil"), ("remote.evil.promisor", "true"),
                        ("remote.evil.url", f"file://{village.work}")):
        settings.append((name, value))
    # Git itself would put another file in the place of this one, which a sticky folder doesn't let others do.
    lines = "".join(line_of_config(name, value) for name, value in settings)
    village.must_run(village.attacker, "sh", "-c", f"cat >>{config}", input=lines)
    attributes = village.repository / "info/attributes"
    village.must_run(village.attacker, "sh", "-c", f"echo '* filter=evil merge=evil diff=evil' >{attributes}")
    return marks


def line_of_config(name: str, value: str) -> str:
    """A setting as it stands in a file of git's."""
    section, _, key = name.rpartition(".")
    first, _, second = section.partition(".")
    heading = f'[{first} "{second}"]' if second else f"[{first}]"
    escaped = value.replace("\\", "\\\\").replace('"', '\\"')
    return f'{heading}\n    {key} = "{escaped}"\n'


def folders_of_the_owner_stay(village: Village) -> None:
    """Who may write the repository's folder can't put others in the place of those of the host and of its hooks."""
    share(village)
    info = village.repository / "objects/info"
    for words in (f"echo /x >{info}/alternates", f"mv {info} {info}-away", f"rm -r {info}"):
        must(f"whether {words} is refused", village.run(village.attacker, "sh", "-c", words).returncode != 0 and info.is_dir())
    for name in ("gate", "hooks", "refs", "objects"):
        ran = village.run(village.attacker, "mv", village.repository / name, village.repository / f"{name}-away")
        must(f"whether {name} stays", ran.returncode != 0 and (village.repository / name).is_dir())
        ran = village.run(village.attacker, "touch", village.repository / "hooks/pre-receive")
        must("whether the hook stays", ran.returncode != 0)


def no_log_leads_to_a_file_of_the_host(village: Village) -> None:
    """Git writes no log through a link that somebody put there."""
    share(village)
    roles = (village.repository / "gate/roles").read_text(encoding="utf-8")
    config = village.repository / "config"
    logs = village.repository / "logs"
    setting = line_of_config("core.logAllRefUpdates", "true")
    village.must_run(village.attacker, "sh", "-c", f"cat >>{config}", input=setting)
    village.must_run(village.attacker, "sh", "-c", f"mkdir -p {logs}/refs/heads && ln -s ../../../gate/roles {logs}/refs/heads/trying")
    village.stop()
    village.start()
    village.must_say(village.reviewer, "bors try")
    village.told("The try has passed")
    want("the roles", (village.repository / "gate/roles").read_text(encoding="utf-8"), roles)


def no_command_of_the_repository_is_run(village: Village) -> None:
    """The host does all that it does with git: it fetches, merges, lands, and reads a head that lacks an object."""
    marks = script_names_commands(village)
    blob = "7" * 40
    given = ["-C", village.repository, "-c", "user.name=x", "-c", "user.email=x@localhost"]
    tree = village.must_run(village.attacker, GIT, *given, "mktree", "--missing", input=f"100644 blob {blob}\tmore\n").strip()
    head = village.must_run(village.attacker, GIT, *given, "commit-tree", tree, "-p", village.first, "-m", "missing").strip()
    village.must_run(village.attacker, "sh", "-c", f"echo {head} >{village.repository}/refs/heads/change/2")
    village.until("the change is open", lambda: "state     open" in village.report("change-2"))
    ran = village.run(
        village.reviewer, PYTHON, village.host / "gate-host", "say", "2", "bors r+", "--repository", village.repository,
    )
    want(f"how the comment ends, which says {ran.stderr}", ran.returncode, 0)
    village.must_say(village.reviewer, "bors r+")
    village.until("it lands, or a command was run", lambda: "Landed" in village.report("log-1") or any(it.exists() for it in marks))
    time.sleep(1)
    want("what was run", [mark.name for mark in marks if mark.exists()], [])
    roles = (village.repository / "gate/roles").read_text(encoding="utf-8")
    must(f"whether the attacker is no reviewer by {roles}", village.attacker not in roles)
    village.until("the change isn't approved", lambda: "can't be read whole" in village.report("log-2"))


def files_of_the_host_are_the_owners(village: Village) -> None:
    """Who may write the files of the repository can't write, remove or list those of the host, or the notes of others."""
    share(village)
    village.stop()
    village.must_say(village.reviewer, "bors r+")
    names = [it for it in os.listdir(village.spool) if not it.startswith(".")]
    must("whether a note lies there", names)
    script = village.room / "try-all"
    script.write_text(TRY_ALL, encoding="utf-8")
    done = village.must_run(village.attacker, PYTHON, script, village.repository / "gate", *names)
    want("what the attacker could do", done.split("\n"), [""])
    village.start()
    village.told("Landed on main")


def nobody_speaks_for_others(village: Village) -> None:
    """A variable says who somebody is if it is the owner who says so, and no other."""
    environment = {**environment_of(village.attacker, village.room), "GL_USER": village.reviewer}
    ran = village.run(
        village.attacker, PYTHON, village.host / "gate-host", "say", "1", "bors r+", "--repository", village.repository, env=environment,
    )
    want(f"how the comment ends, which says {ran.stderr}", ran.returncode, 0)
    village.told(f"{village.attacker} wrote:")
    village.must_have_said_nothing()


def a_note_counts_once(village: Village) -> None:
    """Who left a note leaves it again under its name: it says nothing more."""
    village.stop()
    village.must_say(village.attacker, "bors ping")
    village.must_run(village.owner, "cp", "-a", village.spool, village.homes[village.owner] / "kept")
    village.start()
    village.told("bors ping")
    village.stop()
    for path in (village.homes[village.owner] / "kept").iterdir():
        os.rename(path, village.spool / path.name)
    village.start()
    village.must_say(village.attacker, "that was all")
    village.told("> that was all")
    want("how often it was said", village.report("log-1").count("bors ping"), 1)


ATTACKS = [
    folders_of_the_owner_stay, no_log_leads_to_a_file_of_the_host, no_command_of_the_repository_is_run, files_of_the_host_are_the_owners,
    nobody_speaks_for_others, a_note_counts_once,
]
