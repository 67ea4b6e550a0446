"""What an audit has to find: each of these is planted in a copy of a finished story's repository and journal. `.ci/test_gate_host` plays
them on the story Calm, whose main branch ends with a landing."""
import json
import os
import shutil
import sqlite3
import sys
from contextlib import closing
from pathlib import Path

from stories import GIT, HOST, must, run, want

DONE = '[{"orders":[],"verdict":"done"}]'


class Copy:
    """A copy of a repository with its journal, in a folder of its own. What is planted is about the last landing of the branch."""

    def __init__(self, story, room):
        self.program, self.repository = story.program, Path(room) / "copy.git"
        shutil.copytree(story.repository, self.repository, symlinks=True)
        self.journal = self.repository / "gate/records/journal.db"
        self.landed = self.git("rev-parse", "main")
        self.base, *self.heads = self.git("rev-list", "--parents", "-n", "1", "main").split()[1:]
        self.tree = self.git("rev-parse", "main^{tree}")

    def git(self, *arguments, given=""):
        ran = run(GIT, "-C", self.repository, *arguments, input=given)
        want(f"how git {arguments} ends, which says {ran.stderr}", ran.returncode, 0)
        return ran.stdout.strip()

    def write(self, statement, *values):
        """Alters the journal, and has to alter something."""
        with closing(sqlite3.connect(self.journal)) as journal:
            altered = journal.execute(statement, values).rowcount
            journal.commit()
        must(f"whether {statement} {values} alters something", altered)

    def ask(self, statement, *values):
        with closing(sqlite3.connect(self.journal)) as journal:
            return journal.execute(statement, values).fetchall()

    def exchange(self, before, after):
        """Puts a text in the place of another one, wherever it stands in the journal."""
        for table, column in (("facts", "body"), ("deliveries", "line"), ("deliveries", "answer")):
            self.write(f"UPDATE {table} SET {column} = replace({column}, ?, ?)", before, after)

    def exchange_line(self, before, after):
        """Puts a text in the place of another one in what was handed in."""
        self.write("UPDATE deliveries SET line = replace(line, ?, ?)", before, after)

    def commit(self, tree, *parents):
        """A commit as the host makes them."""
        given = [it for parent in parents for it in ("-p", parent)]
        return self.git("-c", "user.name=gate", "-c", "user.email=gate@localhost", "commit-tree", tree, *given, "-m", "Batch")

    def land(self, commit):
        """Has another commit on the branch in the place of the one that landed last, and the journal say so."""
        self.git("update-ref", "refs/heads/main", commit)
        self.exchange(self.landed, commit)

    def other_tree(self):
        """The files of the last landing and one more."""
        blob = self.git("hash-object", "-w", "--stdin", given="test 1 -gt 0\n")
        return self.git("mktree", given=f"{self.git('ls-tree', self.tree)}\n100644 blob {blob}\tevil\n")

    def id_of(self, like):
        """The identifier of the first delivery whose line has this."""
        return self.ask("SELECT id FROM deliveries WHERE line LIKE ? ORDER BY number LIMIT 1", like)[0][0]

    def status(self):
        """The identifier of a status of the last landing, whose answer gives no order."""
        return self.id_of(f'%"event": "status", "commit": "{self.landed}", "name": "build"%')

    def comment(self):
        """The identifier of the comment by which the first head of the last landing was approved."""
        change = json.loads(self.ask("SELECT line FROM deliveries WHERE line LIKE ?", f'%"head": "{self.heads[0]}"%')[0][0])["change"]
        return self.id_of(f'%"event": "comment", "change": {change},%')

    def by_nobody(self):
        """What is found besides if the comment is gone: rosa approved all, so the message says too much if she approved no other change of
        the batch."""
        return {"other message"} if len(self.heads) == 1 else set()

    def take_out(self, id):
        self.write("DELETE FROM deliveries WHERE id = ?", id)

    def close_gaps(self):
        """Numbers the deliveries anew."""
        for place, (number,) in enumerate(self.ask("SELECT number FROM deliveries ORDER BY number"), 1):
            self.write("UPDATE deliveries SET number = ? WHERE number = ?", place, number)

    def see(self, commit, person):
        """Has the host have seen a move of the branch, and whom it has down for it."""
        number = self.ask("SELECT max(number) FROM facts")[0][0] + 1
        line = json.dumps({"id": f"base-{number}", "event": "base", "commit": commit})
        self.write("INSERT INTO facts VALUES (?, 0, 'MainSeen', ?)", number, json.dumps({"commit": commit, "settings": None}))
        query = "INSERT INTO deliveries (fact, id, line, answer) VALUES (?, ?, ?, ?)"
        self.write(query, number, f"base-{number}", line, DONE)
        body = {"move": number, "person": person, "used": []}
        self.write("INSERT INTO facts VALUES (?, 0, 'MoverFound', ?)", number + 1, json.dumps(body))

    def audit(self, *words):
        """The status of an audit, the kinds of what it finds, and what it says."""
        return audited(self.repository, self.program, *words)


def audited(repository, program, *words):
    ran = run(sys.executable, HOST, "audit", repository, "--program", program, "--json", *words)
    want(f"what an audit complains of, with status {ran.returncode}", ran.stderr, "")
    result = json.loads(ran.stdout)
    want("whether the status says that there are findings", ran.returncode, int(bool(result["findings"])))
    return ran.returncode, {it["kind"] for it in result["findings"]}, result


# Each plant, with the kinds of all that has to be found


def nothing(copy):
    return set()


def other_files(copy):
    copy.land(copy.commit(copy.other_tree(), copy.base, *copy.heads))
    return {"other files"}


def files_of_a_replaced_head(copy):
    """The parents are those that were named, and the files are those of a merge with what stands for the head."""
    evil = copy.commit(copy.other_tree(), *copy.git("rev-list", "--parents", "-n", "1", copy.heads[0]).split()[1:])
    copy.git("update-ref", f"refs/replace/{copy.heads[0]}", evil)
    copy.land(copy.commit(copy.git("merge-tree", "--write-tree", copy.base, copy.heads[0]).splitlines()[0], copy.base, *copy.heads))
    return {"other files", "replacement"}


def other_parents(copy):
    copy.land(copy.commit(copy.tree, copy.base, *copy.heads, copy.commit(copy.tree, copy.base)))
    return {"other parents"}


def other_base(copy):
    """The order to land names another base than the one on which the branch was."""
    first = copy.ask("SELECT line FROM deliveries WHERE id LIKE 'base-%' ORDER BY number LIMIT 1")[0][0]
    query = "UPDATE deliveries SET answer = replace(answer, ?, ?) WHERE answer LIKE ?"
    order = f'"commit":"{copy.landed}","order":"land"'
    copy.write(query, f'"base":"{copy.base}"', f'"base":"{json.loads(first)["commit"]}"', f"%{order}%")
    return {"other base", "answer"}


def a_status_is_taken_out(copy):
    copy.take_out(copy.status())
    return {"not tested", "missing delivery", "answer"}


def a_status_has_another_name(copy):
    copy.write('UPDATE deliveries SET line = replace(line, \'"build"\', \'"built"\') WHERE id = ?', copy.status())
    return {"not tested", "answer"}


def a_status_had_failed(copy):
    copy.write('UPDATE deliveries SET line = replace(line, \'"success"\', \'"failure"\') WHERE id = ?', copy.status())
    return {"not tested", "answer"}


def the_settings_require_more(copy):
    """The settings of then name a check that nobody ran."""
    copy.write("UPDATE deliveries SET line = replace(line, ?, ?) WHERE id LIKE 'settings-%'", r'\"lint\"', r'\"lint\", \"more\"')
    return {"answer", "not tested", "other settings"}


def a_comment_is_taken_out(copy):
    copy.take_out(copy.comment())
    return {"not approved", "missing delivery", "answer", *copy.by_nobody()}


def a_comment_is_taken_out_without_a_gap(copy):
    copy.take_out(copy.comment())
    copy.close_gaps()
    return {"not approved", "answer", *copy.by_nobody()}


def a_comment_says_nothing(copy):
    copy.write("UPDATE deliveries SET line = replace(line, 'bors r+', 'bors ping') WHERE id = ?", copy.comment())
    return {"not approved", "answer", *copy.by_nobody()}


def a_head_is_replaced(copy):
    copy.git("update-ref", f"refs/replace/{copy.heads[0]}", copy.base)
    return {"replacement"}


def a_graft(copy):
    (copy.repository / "info").mkdir(exist_ok=True)
    (copy.repository / "info/grafts").write_text(f"{copy.landed}\n", encoding="utf-8")
    return {"replacement"}


def an_object_is_altered(copy):
    """A file of a head that landed has other contents under its name. Git put some objects together, so they are taken apart first."""
    for pack in list((copy.repository / "objects/pack").glob("*.pack")):
        content = pack.read_bytes()
        for path in pack.parent.glob(f"{pack.stem}.*"):
            path.unlink()
        ran = run(GIT, "-C", copy.repository, "unpack-objects", "-q", input=content, encoding=None)
        want("how git unpacks", ran.returncode, 0)
    blob = copy.git("rev-parse", f"{copy.heads[0]}:bors.toml")
    other = copy.git("hash-object", "-w", "--stdin", given='status = ["lint"]\n')
    places = [copy.repository / "objects" / it[:2] / it[2:] for it in (blob, other)]
    must("whether the file is an object of its own", places[0].exists())
    os.replace(places[1], places[0])
    return {"object"}


def an_answer_is_altered(copy):
    copy.write("UPDATE deliveries SET answer = answer || ' ' WHERE id = ?", copy.comment())
    return {"answer"}


def an_answer_is_no_answer(copy):
    copy.write("UPDATE deliveries SET answer = '7' WHERE id LIKE 'role-%'")
    return {"answer", "altered"}


def a_line_has_another_name(copy):
    copy.write("UPDATE deliveries SET id = 'role-x' WHERE id = ?", copy.id_of('%"event": "role"%'))
    return {"altered"}


def a_delivery_is_taken_out(copy):
    copy.write("DELETE FROM deliveries WHERE number = (SELECT max(number) FROM deliveries WHERE id LIKE 'role-%')")
    return {"missing delivery"}


def an_answer_is_taken_out(copy):
    copy.write("UPDATE deliveries SET answer = NULL WHERE id = ?", copy.id_of('%"event": "role"%'))
    return {"missing answer"}


def a_fact_is_taken_out(copy):
    copy.write("DELETE FROM facts WHERE number = 3")
    return {"missing fact"}


def a_push_past_the_hook(copy):
    """The host hasn't run since."""
    copy.git("update-ref", "refs/heads/main", copy.commit(copy.other_tree(), copy.landed))
    return {"no order"}


def a_push_past_the_hook_that_was_seen(copy):
    commit = copy.commit(copy.other_tree(), copy.landed)
    copy.git("update-ref", "refs/heads/main", commit)
    copy.see(commit, "")
    return {"past the hook"}


def a_push_past_the_queue(copy):
    commit = copy.commit(copy.other_tree(), copy.commit(copy.tree, copy.landed))
    copy.git("update-ref", "refs/heads/main", commit)
    copy.see(commit, "ines")
    want("what an audit finds that allows it", copy.audit("--allow", "Ines")[:2], (0, set()))
    want("what an audit finds of the steps after it", copy.audit("--from", commit)[:2], (0, set()))
    _, kinds, result = copy.audit("--allow", "otto")
    want("what an audit finds that allows somebody else", kinds, {"past the queue"})
    want("how many commits came by it", [it["person"] for it in result["steps"] if it["kind"] == "push"], ["ines"] * 2)
    want("how often that is told", len(result["findings"]), 1)
    return {"past the queue"}


def a_landing_without_order(copy):
    copy.write("UPDATE deliveries SET answer = ? WHERE answer LIKE ?", DONE, f'%"{copy.landed}","order":"land"%')
    return {"no order", "answer"}


def a_landing_that_was_refused(copy):
    """The host tells the bot that it didn't land."""
    batch = json.loads(copy.ask("SELECT line FROM deliveries WHERE line LIKE ?", f'%"staged"%{copy.landed}%')[0][0])["batch"]
    (id,), = copy.ask("SELECT id FROM deliveries WHERE line LIKE ?", f'%"event": "base", "commit": "{copy.landed}"%')
    copy.write("UPDATE deliveries SET line = ? WHERE id = ?", json.dumps({"id": id, "event": "refused", "batch": batch}), id)
    # By a later reading of the clock the program would have the batch staged again.
    query = """SELECT count(*) FROM deliveries WHERE line LIKE '%"tick"%' AND number > (SELECT number FROM deliveries WHERE id = ?)"""
    return {"other report", *(["answer"] if copy.ask(query, id)[0][0] else [])}


def a_landing_is_lost(copy):
    copy.git("update-ref", "refs/heads/main", copy.base)
    return {"lost"}


def the_branch_is_set_back(copy):
    """By somebody who may, as the host saw. That a landing is lost by it is a finding in any case."""
    copy.git("update-ref", "refs/heads/main", copy.base)
    copy.see(copy.base, "ines")
    want("what an audit finds that allows it", copy.audit("--allow", "ines")[1], {"lost"})
    return {"lost", "past the queue"}


def the_message_names_somebody_else(copy):
    """A host that writes down another approver than the one who was."""
    message = copy.git("log", "-1", "--format=%B", copy.landed).replace("Approved-by: rosa", "Approved-by: linus")
    parents = [it for parent in (copy.base, *copy.heads) for it in ("-p", parent)]
    copy.land(copy.git("-c", "user.name=gate", "-c", "user.email=gate@localhost", "commit-tree", copy.tree, *parents, "-m", message))
    return {"other message"}


def the_host_told_other_settings(copy):
    """Those that were handed in ask for less than those of the main branch do."""
    text = copy.git("show", f"{copy.base}:bors.toml") + "\n"
    lighter = text.replace(', "lint"', "")
    want("whether that is less", lighter != text, True)
    copy.exchange_line(json.dumps(text), json.dumps(lighter))
    return {"other settings", "answer"}


PLANTS = [
    nothing, the_message_names_somebody_else, the_host_told_other_settings, other_files, files_of_a_replaced_head, other_parents,
    other_base, a_status_is_taken_out, a_status_has_another_name, a_status_had_failed, the_settings_require_more, a_comment_is_taken_out,
    a_comment_is_taken_out_without_a_gap, a_comment_says_nothing, a_head_is_replaced, a_graft, an_object_is_altered, an_answer_is_altered,
    an_answer_is_no_answer, a_line_has_another_name, a_delivery_is_taken_out, an_answer_is_taken_out, a_fact_is_taken_out,
    a_push_past_the_hook, a_push_past_the_hook_that_was_seen, a_push_past_the_queue, a_landing_without_order, a_landing_that_was_refused,
    a_landing_is_lost, the_branch_is_set_back,
]


def is_found(plant, story, room):
    """Plants something, and looks whether that is found, and nothing else."""
    copy = Copy(story, room)
    due = plant(copy)
    status, kinds, result = copy.audit()
    said = [f"{it['kind']}: {it['said']}" for it in result["findings"]]
    want(f"what an audit finds of {plant.__name__}, by {said}", kinds, due)
    return said
