"""The commands of pages that `.ci/test_pages` types about repositories and the program: each case takes all blocks with commands of its
sections, and fails if there is another one."""
import json
import os
import pwd
import re
import shlex
import shutil
import sqlite3
from contextlib import closing
from pathlib import Path

from page_room import Room, Team, alike, until
from programs import TOP, bytes_until, free_port, want

from pages import steps_of  # noqa: E402

# Of a table of numbers the words alone.
# Who types `init` is the reviewer.
OWNER = pwd.getpwuid(os.geteuid()).pw_name.lower()
NUMBERS = re.compile(r" +\d[\d.]*( s)?\b")


def the_commands_of_readme_land_a_change(room: Room) -> None:
    """README.md, "How to run it": but for the install, which .ci/test_package does, in a repository with a Makefile."""
    section = room.section("README.md", "How to run it")
    _, set_up, use = section.all("indented")
    due, = section.all("text")
    init, run = set_up.splitlines()
    say, log = use.splitlines()
    team = Team(room, "readme")
    room.typed(f"{init} --program '{room.program}'", team.folder)
    team.hurry()
    with room.running(run, team.folder):
        team.clone()
        team.push(OWNER, {"change/1": ("Makefile", "test:\n\techo passed\n")})
        until("the host has seen the change", lambda: team.report("change-1"))
        room.typed(say, team.folder)
        until("change 1 lands", lambda: team.has_landed(1))
        found = room.typed(log, team.folder)
        # ssh hands its words to a shell over there.
        by_ssh, = [it for it in room.section("docs/host.md", "Changes and people").spans() if it.startswith("ssh ")]
        room.tool(room.bin / "ssh", 'shift\nexec sh -c "$*"\n')
        said = room.typed(by_ssh.replace("/srv/project.git", str(team.repository)), team.folder)
        want("whether that is said", said.startswith(f"said by {OWNER} of change 1 "), True)
    want("what the last command shows", alike(found), re.sub(r"\bines\b", OWNER, alike(due)))


def questions_are_answered_as_the_page_says(room: Room) -> None:
    """questions.md, machines.md and "The audit" of trusting-the-host.md, in a repository in which the fourth change breaks the build."""
    team = Team(room, "questions")
    room.typed(
        f"gate-host init project.git --program '{room.program}' --check build='test ! -e broken' --reviewer rosa --may-push ines",
        team.folder,
    )
    team.hurry()
    team.clone()
    team.push("otto", {f"change/{it}": ("broken" if it == 4 else f"file-{it}", "") for it in (2, 3, 4, 5)})
    for change in (2, 3, 4, 5):
        team.say("rosa", change, "bors r+")
    with room.running("gate-host run project.git", team.folder):
        until("each change has landed or is refused", lambda: team.has_landed(2, 3, 5) and "(Failed)" in team.report("log-4"))
        explains(room, team)
        supposes(room, team)
        freezes(room, team)
        start = room.typed("git rev-parse main", team.repository).strip()
        team.push("ines", {"main": ("beside", "")})
        team.bring(7)
        gives_documents(room, team)
    audits(room, team, start)
    says_how_good_estimates_were(room, team)


def explains(room: Room, team: Team) -> None:
    asked, = steps_in(room, "docs/questions.md", "Why was mine taken out?", "text")
    want("what is explained", alike(room.typed(asked.command, team.work)), alike(asked.due))


def steps_in(room: Room, page: str, title: str, kind: str):
    """The commands of a section, of which each is one that is shown with what it prints."""
    return [step for block in room.section(page, title).all(kind) for step in steps_of(block)]


def supposes(room: Room, team: Team) -> None:
    """The numbers are those of another story. What else is said is the same up to the list of changes."""
    asked, = steps_in(room, "docs/questions.md", "What would these settings have done?", "text")
    (team.work / "other.toml").write_text('status = ["build"]\nmax_batch_size = 1\n', encoding="utf-8")
    found, due = (shape_of(it) for it in (room.typed(asked.command, team.work), asked.due))
    want("what is supposed", found[:11], due[:11])
    (team.work / "other.toml").unlink()


def shape_of(text: str) -> "list[str]":
    return [NUMBERS.sub("", re.sub(r"\d+", "N", line) if " " not in line[:1] and "  " not in line else line) for line in text.splitlines()]


def freezes(room: Room, team: Team) -> None:
    block, = room.section("docs/questions.md", "How do I stop it for a while?").all("indented")
    freeze, thaw = block.splitlines()
    room.typed(freeze, team.work, GL_USER="rosa")
    until("the report says why", lambda: shlex.split(freeze)[-1] in team.report("queue"))
    room.typed(thaw, team.work, GL_USER="rosa")
    until("the queue goes on", lambda: "frozen" not in team.report("queue"))


def gives_documents(room: Room, team: Team) -> None:
    """machines.md: of change 7, whose log begins as the page shows."""
    commands, shown = room.section("docs/machines.md", "Documents of JSON").all("text")
    printed = [room.typed(command, team.work) for command in commands.splitlines()]
    want("the versions", [json.loads(it)["version"] for it in printed], [1, 1, 1])
    found, due = (re.sub(r'"at": \d+', "AT", it) for it in (printed[-1], shown))
    want("how the log begins", found[:len(due)], due)


def audits(room: Room, team: Team, start: str) -> None:
    """Of what came since: somebody who may has pushed past the queue, and a change has landed. The page has one landing more."""
    asked, = steps_in(room, "docs/trusting-the-host.md", "The audit", "text")
    copy = team.folder / "copy"
    copy.mkdir()
    for path in (team.repository / "gate/records").glob("journal.db*"):
        shutil.copy(path, copy)
    ran = room.ran(f"{asked.command.replace('4461d56', start)} --program '{room.program}'", team.folder)
    want("how the audit ends", (ran.returncode, ran.stderr), (1, ""))
    want("what it says", of_audit(ran.stdout), of_audit(asked.due))


def of_audit(text: str) -> "list[str]":
    """The kinds of lines that the audit prints: without numbers, and each once."""
    text = re.sub(r"\d+ (step|landing|change|fact|answer|finding|deliver)(s|y|ies)?\b", r"\1", alike(text).replace("build, lint", "build"))
    text = re.sub(r"\d+ (?=past)", "", re.sub(r"batch \d+ +\d+", "batch", text))
    return list(dict.fromkeys(re.sub(r" +", " ", text).splitlines()))


def says_how_good_estimates_were(room: Room, team: Team) -> None:
    """`bench/estimates PROGRAM JOURNAL..` of questions.md."""
    found = room.typed(f"'{TOP}/bench/estimates' '{room.program}' copy/journal.db", team.folder)
    counted = re.match(r"copy/journal\.db: [1-9]\d* estimates of what landed: of a hundred \d+ within", found)
    want(f"whether it counts estimates: {found}", counted is not None, True)


def older_histories_and_names(room: Room) -> None:
    """host.md: another history in place of the first commit, and a second name of the main branch, which the doctor finds."""
    spans = [it for title in ("Quick start", "The doctor") for it in room.section("docs/host.md", title).spans()]
    push, = [it for it in spans if it.startswith("git push ")]
    rename, = [it for it in spans if it.startswith("git symbolic-ref ")]
    team = Team(room, "older")
    room.typed(f"gate-host init project.git --program '{room.program}' --check build=true", team.folder)
    older = room.new("older-history")
    (older / "bors.toml").write_text('status = ["build"]\n', encoding="utf-8")
    (older / "project.git").symlink_to(team.repository)
    room.typed("git init --quiet --initial-branch=main && git add bors.toml && git commit --quiet -m Older", older)
    room.typed(push, older)
    want("where main is", room.typed("git rev-parse main", team.repository), room.typed("git rev-parse main", older))
    room.typed(rename, team.repository)
    want("where master is", *(room.typed(f"git rev-parse --verify {it} --", team.repository).split()[0] for it in ("master", "main")))
    found = room.ran("gate-host doctor project.git", team.folder)
    want(f"whether the doctor finds it: {found.stdout}", bool(re.search(r"^WRONG: .*refs/heads/master", found.stdout, re.M)), True)


# --- The program


def commands_of_a_running_bot(room: Room) -> None:
    """operating.md, "What can be read" and "Running it for long", and program.md, "HTTP". In the block of an upgrade `old` and `new` are
    this program. .ci/test_upgrade tries what is said there with a program of 0.9.0, which the checks haven't."""
    service, = [it.text for it in room.section("docs/operating.md", "Running it for long").blocks if it.kind == "bash"]
    forth, back = room.section("docs/operating.md", "Running it for long").all("sh")
    query, = room.section("docs/operating.md", "What can be read").all("sql")
    journal = steps_in(room, "docs/operating.md", "An example", "console")[0]
    at = room.new("operating")
    (at / "gate").symlink_to(room.program)
    upgraded, = [it for it in room.section("docs/operating.md", "Running it for long").spans() if it.startswith("./gate run <")]
    before = f"old() {{ gate \"$@\"; }}; new() {{ gate \"$@\"; }}\n{journal.command}\ngate run <journal >answers\n"
    want("what the blocks print", room.typed(f"{before}{forth}{back}{upgraded}\ncmp again answers", at), "equal\nequal\n")
    with closing(sqlite3.connect(at / "gate.db")) as database:
        found = database.execute(query).fetchall()
    # By formats.md: the batch 1 of staging, which is landing, with change 1.
    want("what the query gives", [(row[0], row[-1]) for row in found], [(1, 1)])
    a_bot_ends_with_its_input(room, at, service)


def a_bot_ends_with_its_input(room: Room, at: Path, service: str) -> None:
    port = str(free_port())
    curl, = room.section("docs/program.md", "HTTP").all("indented")
    (at / "gate.db").unlink()
    for path in at.glob("gate.db-*"):
        path.unlink()
    with room.running(service.replace("7000", port), at) as child:
        want("its first line", bytes_until(child.stdout, b"\n").decode(), f"listening on 127.0.0.1:{port}\n")
        asked = f"curl() {{ command curl -q -sS --noproxy '*' \"$@\"; }}\n{curl.replace('7000', port)}"
        want("what curl prints", room.typed(asked, at).strip(), '[{"orders":[],"verdict":"done"}]')
        sleeper, = room.typed(f"pgrep -g {child.pid} -x sleep", at).split()
        room.typed(f"kill {sleeper}", at)
        want("how it ends", child.wait(20), 0)


def a_token_is_made(room: Room) -> None:
    """program.md, "A token": what openssl prints is one, so the program takes it."""
    makers = [it for it in room.section("docs/program.md", "A token").spans() if it.startswith("openssl ")]
    want("how many commands make one", len(makers), 2)
    at = room.new("token")
    for command in makers:
        port = str(free_port())
        with room.running(f"{command} >token && exec gate serve --port {port} --count 1 --token token", at) as child:
            found = bytes_until(child.stdout, b"\n").decode()
            want(f"the first line with the token of {command}", found, f"listening on 127.0.0.1:{port}\n")


# --- Git


def git_stages_and_lands(room: Room) -> None:
    """writing-a-host.md: a batch of two changes is made by the commands under "Stage", and landed by those under "Land", both by the first
    line in the repository and by the second from a clone."""
    stage, = room.section("docs/writing-a-host.md", "Stage").all("sh")
    merge_base, merge_tree, commit_tree, update = stage.splitlines()
    team = Team(room, "git")
    base = commit_in(room, team.repository, {"a": "1\n"})
    room.typed(f"git update-ref refs/heads/main {base}", team.repository)
    heads = [commit_in(room, team.repository, {"a": "1\n", name: "1\n"}, base) for name in ("b", "c")]
    clash = commit_in(room, team.repository, {"a": "1\n", "b": "2\n"}, base)
    given, commit, parents = {"BASE": base, "MESSAGE": "Batch 1"}, base, ""
    for head in heads:
        given.update(COMMIT=commit, HEAD=head)
        want("where they meet", room.typed(merge_base, team.repository, **given).strip(), base)
        given["TREE"] = room.typed(merge_tree, team.repository, **given).strip()
        # With -p for each head so far, as the page says.
        commit = room.typed(commit_tree.replace(' -p "$HEAD"', f'{parents} -p "$HEAD"'), team.repository, **given).strip()
        parents += f" -p {head}"
    want("the parents", room.typed(f"git log -1 --format=%P {commit}", team.repository).split(), [base, *heads])
    want("the files", room.typed(f"git ls-tree --name-only {commit}", team.repository).split(), ["a", "b", "c"])
    given.update(COMMIT=commit)
    room.typed(update, team.repository, **given)
    want("where staging is", room.typed("git rev-parse staging", team.repository).strip(), commit)
    want("the status of a conflict", room.ran(merge_tree, team.repository, **{**given, "HEAD": clash}).returncode, 1)
    lands(room, team, given)


def lands(room: Room, team: Team, given: "dict[str, str]") -> None:
    block, = room.section("docs/writing-a-host.md", "Land").all("sh")
    update, push, is_on_main = block.splitlines()
    team.clone()
    room.typed("git fetch --quiet origin staging", team.work)
    base, commit = given["BASE"], given["COMMIT"]
    want("whether it is on main before", room.ran(is_on_main, team.repository, **given).returncode, 1)
    for command, at in ((update, team.repository), (push, team.work)):
        room.typed(f"git update-ref refs/heads/main {base}", team.repository)
        room.typed(command, at, **given)
        want("whether it is on main", room.ran(is_on_main, team.repository, **given).returncode, 0)
        # Main isn't at the base now.
        want(f"whether {command} moves it again", room.ran(command, at, **{**given, "COMMIT": base}).returncode != 0, True)
        want("where main is", room.typed("git rev-parse main", team.repository).strip(), commit)


def commit_in(room: Room, repository: Path, files: "dict[str, str]", *parents: str) -> str:
    """A commit with these files, made without a work tree."""
    blobs = {name: room.typed("git hash-object -w --stdin", repository, given=text).strip() for name, text in files.items()}
    tree = room.typed("git mktree", repository, given="".join(f"100644 blob {it}\t{name}\n" for name, it in blobs.items())).strip()
    return room.typed(f"git commit-tree {tree} -m x {' '.join(f'-p {it}' for it in parents)}", repository).strip()
