"""The loop: it looks at what has happened, writes it down, hands it in, and does what the bot says. docs/host-inside.md says why so."""
import signal
import time
from dataclasses import replace
from typing import Callable, Dict, List, Mapping, Optional, Sequence, Tuple, TypeVar, Union

from .core import broken, watching, words
from .core.clock import ClockWatch
from .core.deliveries import touched
from .core.duties import BRANCHES, Duties, Merge, Move, Point, Step, ToMerge, steps_of, tests_of
from .core.facts import (
    BaseEnded, Delayed, Doubted, Ended, Fact, Faulted, HeadDated, MainSeen, Merged, Moved, NotMoved, NotTaken, Opened, PushTold, Said,
    Staged, Ticked,
)
from .core.known import Batch, Known, Test
from .core.commands import command_lines
from .core.notes import Acceptance, Comment, Freezing, Note, Report, Strange, Thawing, objection_to
from .core.orders import Land, Unread, is_done
from .core.watching import Watch
from .core.words import MOST_IN_SETTINGS, listed
from .faults import Trouble, Unable
from .journal import Heard
from .ports import Detail, Fault, Ports, Reading, Result
from .troubles import Troubles, complain

PAUSE_SECONDS = 0.1
# After a note of a push the branch may still have to move. So long each pause ends with a look.
SECONDS_OF_LOOKING = 3
REPORT_SECONDS = 0.1
RETRY_SECONDS = 2
SECONDS_TO_TIDY = 86400
# So long after a hook has told of a push to the main branch git has moved it, or refused.
SECONDS_OF_PUSH = 600
# If it can't be told what settings mean, it is asked again after so long.
SECONDS_TO_READ_AGAIN = 10
# So many branches of landed changes are deleted in a look, and one that can't be is tried again after so long.
MOST_DROPPED, SECONDS_TO_TIDY_AGAIN = 20, 300

Due = TypeVar("Due")


class Host:
    """A host at work. What it knows is a function of what its journal has."""

    def __init__(self, ports: Ports, known: Known, owner: Optional[str], rounds_for_all: int, troubles: Troubles):
        self.ports, self.known, self.troubles = ports, known, troubles
        # The owner, if that is a name that the bot takes.
        self.owner = owner
        # How many batches had ended when the time was told last, or nothing waited.
        self.ended_before = known.ended
        self.watch = Watch(rounds_for_all)
        self.clock = ClockWatch()
        self.ending = False
        self.is_report_due = True
        # When the next look, reading, report, tidying, forgetting and retry is due.
        self.next_look = self.next_tick = self.next_report = self.next_tidy = self.next_forgetting = 0.0
        self.next_retry: Dict[str, float] = {}
        self.looking_until = 0.0
        # The heads of changes at the last look.
        self.heads: Dict[int, str] = {}
        self.details: Mapping[int, Detail] = {}
        self.others: Mapping[int, str] = {}
        # Of what is tested, by its batch, as which check and why it fails before it is tested, or none; and what is to be said of the bot's
        # settings.
        self.objections: Dict[int, Optional[Tuple[str, str]]] = {}
        # When what settings mean is asked again after that failed, and when branches that couldn't be deleted are tried again.
        self.next_reading = 0.0
        self.next_drops: Dict[int, float] = {}
        self.said_of_settings: List[str] = []

    # The loop

    def begin(self) -> None:
        """Has signals end it in order from here on."""
        for number in (signal.SIGTERM, signal.SIGINT, signal.SIGHUP):
            # What is ignored from the start stays so, as under `nohup`.
            if signal.getsignal(number) is not signal.SIG_IGN:
                signal.signal(number, self.end)

    def clear(self) -> None:
        """Removes what an earlier host has left."""
        self.ports.runner.clear()
        self.tidy()

    def run(self) -> None:
        """Goes on until a signal ends it."""
        while not self.ending:
            try:
                self.round()
                self.troubles.end("git")
            except Unable as fault:
                self.troubles.say("git", f"git can't do what is needed, and is asked again: {fault}")
                self.report()
                time.sleep(RETRY_SECONDS)
            time.sleep(PAUSE_SECONDS)

    def end(self, *_: object) -> None:
        self.ending = True

    def close(self) -> None:
        """Leaves all in order. What isn't done is done at the next start."""
        self.ports.runner.close()
        self.ports.after.close()
        self.ports.on_event.close()
        self.ports.board.close()
        self.ports.bot.close()
        self.ports.journal.close()

    def tidy(self) -> None:
        """Tidies up: at the start, and once a day when nothing waits."""
        self.next_tidy = time.monotonic() + SECONDS_TO_TIDY
        self.ports.repository.tidy(self.known)

    def round(self) -> None:
        """One look at everything. What was left undone comes first."""
        self.watch.rounds += 1
        self.settle()
        notes = self.ports.source.take()
        self.take_pushes(notes)
        self.look_into_moves()
        now = time.monotonic()
        # A comment is about what was pushed before it, so the branches are looked at first.
        if notes or now >= self.next_look or now < self.looking_until:
            self.next_look = now + self.ports.owner.settings.look_seconds
            self.look()
        for note in notes:
            if self.take_note(note):
                self.ports.source.remove(note.note)
        self.check()
        self.tick()
        is_due = self.is_report_due or self.troubles.is_news or self.ports.board.is_behind
        if is_due and time.monotonic() >= self.next_report:
            self.report()

    # Handing in and doing

    def record(self, fact: Fact) -> None:
        """Writes a fact down, hands in what it tells the bot, and does what the bot says then."""
        self.ports.journal.record(self.known, self.ports.clock.now(), fact)
        self.is_report_due = True
        self.settle()

    def settle(self) -> None:
        """Hands in what has no answer, does what is to be done, and goes on so until nothing is left that can be done now."""
        while self.hand_in() or self.do_first():
            pass

    def hand_in(self) -> bool:
        """Hands in the first delivery that has no answer. False if there is none."""
        if not self.known.waiting:
            return False
        answer = self.ports.bot.hand_in(self.known.waiting[0].line)
        heard = self.ports.journal.keep_answer(self.known, self.ports.clock.now(), answer)
        self.ports.board.note(heard.delivery, touched(heard.delivery, heard.orders, self.known))
        self.say_landing(heard)
        self.is_report_due = True
        return True

    def say_landing(self, heard: Heard) -> None:
        delivery = heard.delivery
        if delivery.event == "base" and isinstance(delivery.order, Land) and is_done(heard.answer):
            complain(f"{listed(delivery.changes)} landed as {delivery.order.commit}")

    def do_first(self) -> bool:
        """Does the first thing that the bot says is to be done and needn't wait. False if there is none."""
        for branch in BRANCHES:
            # What can't be staged for now may be over.
            if not isinstance(self.ports.bot.duties().of(branch), ToMerge):
                self.troubles.end(f"stage {branch}")
        return any(self.do(step) for step in self.due(steps_of))

    def due(self, of: Callable[[Known, Duties], List[Due]]) -> List[Due]:
        """What the bot says is to be done. If that doesn't fit what it has ordered before, nothing is done, and the host ends."""
        try:
            return of(self.known, self.ports.bot.duties())
        except Unread as fault:
            raise Trouble(f"what the bot says is to be done doesn't fit the journal: {fault}") from fault

    def do(self, step: Step) -> bool:
        """Does what is to be done, and writes down what became of it. False if it has to wait, which a landing never does."""
        if isinstance(step, Move):
            self.land(step)
            return True
        branch = step.batch.stage.branch
        if time.monotonic() < self.next_retry.get(branch, 0.0):
            return False
        try:
            fact = self.stage(step)
        except Unable as fault:
            self.next_retry[branch] = time.monotonic() + RETRY_SECONDS
            self.delay(step.order, step.batch, str(fault))
            return False
        if not isinstance(fact, Merged):
            self.troubles.end(f"stage {branch}")
        self.ports.journal.record(self.known, self.ports.clock.now(), fact)
        return True

    def stage(self, step: Union[Merge, Point]) -> Fact:
        """Merges a batch, or moves the branch on which it is tested to its merge."""
        if isinstance(step, Merge):
            return self.ports.repository.merge(step.order, step.batch)
        self.ports.repository.point(step.batch, self.known)
        return Staged(step.order)

    def delay(self, order: str, batch: Batch, why: str) -> None:
        """Tells once why a batch isn't staged, which is no fault of its changes. What happens meanwhile is handed in."""
        about = f"stage {batch.stage.branch}"
        if about not in self.troubles.said:
            self.ports.journal.record(self.known, self.ports.clock.now(), Delayed(order, why))
        text = words.delayed(batch.stage, why)
        self.troubles.say(about, f"b{text[1:]}")

    def land(self, step: Move) -> None:
        """Moves the main branch, or writes down that it doesn't go. If that can't be done at present, that is no refusal: the order stays
        open, and holds up everything else."""
        try:
            is_there = self.ports.repository.land(step.land, step.batch)
        except Unable as fault:
            raise Unable(f"batch {step.land.batch} can't be landed yet: {fault}") from fault
        fact: Fact = Moved(step.order, self.ports.owner.main) if is_there else NotMoved(step.order)
        self.ports.journal.record(self.known, self.ports.clock.now(), fact)

    # What has happened

    def look(self) -> None:
        """Looks at the owner's files, and where the branches are."""
        owner = self.ports.owner
        before = (owner.settings, owner.reporters)
        for name, trouble in owner.read():
            self.troubles.put(name, f"{trouble}; the {name} of before stay" if trouble else "")
        self.is_report_due = self.is_report_due or (owner.settings, owner.reporters) != before
        seen = self.ports.source.look()
        # The look may have found who somebody is that reviews.
        for role in watching.news_of_roles(self.known, self.ports.owner.roles):
            self.record(role)
        is_gone = [f"the branch {self.ports.owner.main} isn't there any more"] if self.known.base and not seen.main else []
        self.troubles.put("names", "; ".join([*seen.in_way, *is_gone]))
        if seen.main and watching.is_news_of_main(self.known, seen.main):
            self.record(MainSeen(seen.main, self.ports.repository.settings_at(seen.main, MOST_IN_SETTINGS)))
            self.watch.note_moves(self.known)
        self.look_at_settings()
        self.heads, self.details, self.others = seen.heads, seen.details, seen.others
        self.look_at_changes(self.watch.pick(self.known, seen.heads))
        self.drop_branches()

    def look_at_settings(self) -> None:
        """Says why the bot refuses its settings, which keys of them mean nothing to it, and which required statuses nobody ever reports."""
        known, owner = self.known, self.ports.owner
        said = []
        if time.monotonic() < self.next_reading:
            return
        try:
            last = self.ports.bot.read(known.settings) if known.settings is not None else None
            taken = self.ports.bot.read(known.taken) if known.taken else Reading()
        except Unable as fault:
            self.next_reading = time.monotonic() + SECONDS_TO_READ_AGAIN
            self.troubles.put("required", f"what bors.toml requires can't be told: {fault}")
            return
        if known.refusal:
            said.append(f"the settings of {owner.main} aren't taken: {last.refusal if last and last.refusal else known.refusal}")
        said += [f"bors.toml: {it}" for it in last.remarks] if last else []
        why = self.lock_in(taken)
        self.troubles.put("required", f"bors.toml requires {why}, so nothing can land" if why else "")
        for text in (it for it in said if it not in self.said_of_settings):
            complain(text)
        self.is_report_due = self.is_report_due or said != self.said_of_settings
        self.said_of_settings = said

    def lock_in(self, read: Reading) -> str:
        """What settings require that never comes, so that nothing could be approved or land by them; or nothing."""
        owner = self.ports.owner
        if read.reviews and not owner.has_reviews:
            return f"reviews ({read.reviews} of a change), which nobody can give here"
        never = watching.never_reported(read.required, owner.settings.checks, owner.reporters)
        of_heads = watching.never_reported(read.of_heads, (), owner.reporters)
        if never:
            return words.without_reporter(never)
        if owner.own_status in read.of_heads:
            return f"the status {owner.own_status} of heads, which the host itself sets, to success when a change has landed"
        return words.without_reporter_of_heads(of_heads) if of_heads else ""

    def drop_branches(self) -> None:
        """Deletes branches of what has landed, if the owner wants that: some in a look, so that many hold nobody up. One that can't be
        deleted is tried again later."""
        wanted = self.ports.owner.settings.delete_branches
        left = watching.left_by_landings(self.known, self.heads) if wanted else {}
        for change in [it for it in self.next_drops if it not in left]:
            del self.next_drops[change]
            self.troubles.end(f"branch of change {change}")
        due = [it for it in left if time.monotonic() >= self.next_drops.get(it, 0.0)]
        for change in due[:MOST_DROPPED]:
            try:
                self.ports.repository.drop(change, left[change])
            except Unable as fault:
                self.next_drops[change] = time.monotonic() + SECONDS_TO_TIDY_AGAIN
                self.troubles.say(f"branch of change {change}", str(fault))

    def look_at_changes(self, heads: Dict[int, str]) -> None:
        """Writes down which changes are new, have moved, or are gone."""
        if self.watch.later:
            self.next_look = 0.0
        self.fetch(heads)
        for change, head in heads.items():
            self.date_head(change, head)
            moved = watching.news_of_head(self.known, change, head)
            if moved:
                self.record(moved)
            elif watching.is_new(self.known, change):
                self.open(change, head)
            self.look_at_detail(change, head)
        for closed in watching.gone(self.known, self.heads):
            self.record(closed)

    def date_head(self, change: int, head: str) -> None:
        """Writes down since when a change is at a head, if a code host says so. That comes before the head itself: if the host dies between
        the two, a comment of meanwhile counts all the same."""
        detail = self.details.get(change)
        if detail and watching.has_to_be_dated(self.known, change, head, detail.forced):
            self.record(HeadDated(change, head, max(detail.dated, detail.forced)))

    def look_at_detail(self, change: int, head: str) -> None:
        """Writes down what a code host says of an open change besides its head."""
        detail, known = self.details.get(change), self.known
        if detail is None or known.phase(change) != "open" or known.head_of(change) != head:
            return
        news = [*watching.news_of_labels(known, change, detail.labels), *watching.news_of_reviews(known, change, detail.reviews)]
        for fact in news:
            self.record(fact)

    def fetch(self, heads: Dict[int, str]) -> None:
        """Has new heads here at once. One that can't come is fetched when it is needed, or told then."""
        before = self.known.changes
        new = {change: head for change, head in heads.items() if change not in before or before[change].head != head}
        for change, why in self.ports.repository.fetch(new).items():
            complain(f"the head of change {change} can't be read whole: {why}")
        self.ports.repository.forget(closed.change for closed in watching.gone(self.known, self.heads))

    def open(self, change: int, head: str) -> None:
        """Opens a change for whoever pushed it. A hook tells of that before the branch moves, so its note is there in the next round at
        the latest."""
        detail = self.details.get(change)
        author: Optional[str] = detail.author if detail else None
        if detail is None:
            author = self.watch.author(self.known, change, head, self.owner or "nobody", self.ports.source.has_more)
        if author is None:
            self.next_look = 0.0
        else:
            self.record(Opened(change, author, head))

    def look_into_moves(self) -> None:
        """Finds out who moved the main branch beside the host. A hook tells of that before the branch moves, so its note is there in the
        round after the move was seen."""
        may_push = {*self.ports.owner.settings.may_push, *([self.owner] if self.owner else [])}
        found = self.watch.next_mover(self.known, may_push, self.ports.source.has_more, self.ports.owner.first)
        while found:
            self.record(found)
            found = self.watch.next_mover(self.known, may_push, self.ports.source.has_more, self.ports.owner.first)
        if time.monotonic() >= self.next_forgetting and not self.known.unknown_moves():
            self.next_forgetting = time.monotonic() + SECONDS_OF_PUSH
            forgotten = watching.old_pushes(self.known, self.ports.clock.now() - SECONDS_OF_PUSH)
            if forgotten:
                self.record(forgotten)
        strays = [words.stray(time_of_day(move.at), move.before, move.target) for move in self.known.strays()]
        self.troubles.put("moves", "; ".join(strays))

    # Notes

    def take_pushes(self, notes: Sequence[Note]) -> None:
        """Keeps who tells of having pushed what."""
        for note in notes:
            if isinstance(note, PushTold):
                self.looking_until = time.monotonic() + SECONDS_OF_LOOKING
                if (note.heads or note.moves) and not self.ports.journal.has_taken(note.note):
                    self.record(note)

    def take_note(self, note: Note) -> bool:
        """Takes a note. False if it has to wait for its change, which is opened in the next round."""
        if isinstance(note, Acceptance):
            for found in watching.accepted(self.known, note.commit, note.person, self.owner):
                self.record(found)
        elif isinstance(note, Comment):
            return self.take_comment(note)
        elif isinstance(note, Report):
            return self.take_report(note)
        elif isinstance(note, (Freezing, Thawing)):
            self.take_freeze(note)
        elif isinstance(note, Strange):
            complain(f"a note of {note.person} is no comment on a change")
        return True

    def take_comment(self, comment: Comment) -> bool:
        if self.watch.is_awaited(comment.change):
            return False
        if self.ports.journal.has_taken(comment.note):
            return True
        why = self.others.get(comment.change)
        if why is None and comment.change not in self.known.changes:
            complain(f"a note of {comment.person} is no comment on a change")
        elif why or comment.objection:
            self.record(NotTaken(comment.note, comment.change, comment.person, comment.text, why or comment.objection))
        else:
            seen = comment.seen if comment.written is None else watching.seen_by(self.known, comment.change, comment.written)
            said = Said(comment.note, comment.change, comment.person, comment.text, seen)
            self.record(said if self.is_readable(said) else replace(said, is_readable=False))
        return True

    def take_report(self, report: Report) -> bool:
        """Takes what somebody reports of a commit. It waits for a change that is about to be opened at that, or a test that is to begin."""
        is_awaited = any(head == report.commit and self.watch.is_awaited(change) for change, head in self.heads.items())
        if is_awaited or watching.is_about_to_be_tested(self.known, report.commit):
            return False
        if not self.ports.journal.has_taken(report.note):
            found = watching.report_of(self.known, report, self.ports.owner.settings.checks, self.ports.owner.reporters)
            if isinstance(found, str):
                complain(found)
            else:
                self.record(found)
        return True

    def take_freeze(self, note: Union[Freezing, Thawing]) -> None:
        """Freezes the queue or thaws it, if who wants that may. The time is told at once when it goes on."""
        if self.ports.journal.has_taken(note.note):
            return
        found = watching.freeze_of(self.known, note, self.owner)
        if isinstance(found, str):
            complain(found)
        else:
            self.record(found)
            self.next_tick = 0.0

    def is_readable(self, said: Said) -> bool:
        """Whether the head that a comment is about can be read whole. It is asked only if that matters."""
        head = self.known.changes[said.change].head
        is_asked = command_lines(said.text) and not objection_to(self.known, said)
        return not (is_asked and self.ports.repository.fetch({said.change: head}))

    # Checks, the clock and reports

    def check(self) -> None:
        """Writes down how checks have ended, and starts the next ones of what the bot says is tested."""
        # Whoever ends the host may end its checks as well. They have no result then, and begin anew at the next start.
        if self.ending:
            return
        tests = self.due(tests_of)
        for ended in self.ports.runner.ended([*tests, *self.base_tests(tests)]):
            self.take_end(ended)
        for test in self.due(tests_of):
            if not self.fails_at_once(test):
                results = self.known.results.get(test.branch, {})
                # What is only pending elsewhere is no result: a command may have taken the place of that.
                done = {name: state for name, state in results.items() if state != "pending"}
                self.ports.runner.begin(test, self.ports.owner.settings, done)
        for test in self.base_tests(self.due(tests_of)):
            self.check_base(test)
        self.show_faults()
        self.troubles.put("after landing", self.ports.after.go_on(self.ports.owner.settings, self.known.landings))
        self.troubles.put("on_event", self.ports.on_event.go_on(self.ports.owner.settings, self.known.events))

    def base_tests(self, tests: Sequence[Test]) -> List[Test]:
        """What has to be tested of the base, for a batch that is tested."""
        found = broken.base_test(self.known)
        return [found] if found and found.batch in [it.batch for it in tests] else []

    def check_base(self, test: Test) -> None:
        """Runs on the base alone what a batch of one change has failed. A check that has no command any more comes to no verdict there."""
        settings = self.ports.owner.settings
        gone = [name for name in broken.doubts_of(self.known, test.batch) if name not in settings.checks]
        for name in gone:
            self.record(BaseEnded(test.batch, name, "error", "there is no command for it any more", ""))
        if not gone:
            done = broken.done_on_base(self.known, test, settings.checks, settings.parallel)
            self.ports.runner.begin(test, settings, done)

    def fails_at_once(self, test: Test) -> bool:
        """Whether a batch fails before it is tested, since with its settings nothing could land after it. People are told why by a check
        that is required now."""
        if test.batch not in self.objections:
            batches = [it.batch for it in self.known.tests.values()]
            self.objections = {batch: found for batch, found in self.objections.items() if batch in batches}
            if time.monotonic() < self.next_reading:
                return True
            try:
                why = self.objection_to(test)
                required = self.ports.bot.read(self.known.taken).required if why else ()
                self.objections[test.batch] = (required[0], why) if required else None
                self.troubles.end("objection")
            except Unable as fault:
                # It waits, since what it brings may be what locks the queue.
                self.next_reading = time.monotonic() + SECONDS_TO_READ_AGAIN
                self.troubles.say("objection", f"the settings of batch {test.batch} can't be looked at, so it isn't tested: {fault}")
                return True
        found = self.objections[test.batch]
        if found and self.known.results.get(test.branch, {}).get(found[0]) != "failure":
            self.record(Ended(test.batch, found[0], "failure", found[1], ""))
        return found is not None

    def objection_to(self, test: Test) -> str:
        """Why the settings in the merge of a batch would keep others from landing, or nothing."""
        batch = self.known.batch_of(test.batch)
        before, after = self.ports.repository.settings_of(batch) if batch else (None, None)
        if after == before or not self.known.taken:
            return ""
        if after is None:
            return words.NO_SETTINGS_LEFT
        read = self.ports.bot.read(after)
        if read.refusal:
            return f"its bors.toml would be refused: {read.refusal}"
        why = self.lock_in(read)
        return f"its bors.toml requires {why}" if why else ""

    def take_end(self, ended: Union[Result, Fault]) -> None:
        """Writes down how a check has ended. People are told once of each that it has to be tried again."""
        batch = ended.test.batch
        if isinstance(ended, Result):
            found = (batch, ended.name, ended.state, ended.said, ended.output)
            if ended.test.branch == broken.MAIN:
                self.record(BaseEnded(*found))
            else:
                self.record(Doubted(*found) if self.is_doubtful(ended) else Ended(*found))
        elif ended.test.branch != broken.MAIN and (batch, ended.name) not in self.known.faulted:
            self.record(Faulted(batch, ended.name, ended.said))

    def is_doubtful(self, ended: Result) -> bool:
        """Whether the base is to be tested before this failure is told. If it can't be told what is required, it is told at once."""
        batch = self.known.batch_of(ended.test.batch)
        if not self.ports.owner.settings.retest_base or ended.state != "failure" or batch is None:
            return False
        try:
            required = self.ports.bot.read(self.known.taken).required
        except Unable:
            return False
        return broken.is_doubtful(self.known, batch, ended.name, required)

    def show_faults(self) -> None:
        """Has the faults that last stand in the report of the queue, and no others."""
        lasting = {f"check {fault.name} of batch {fault.test.batch} on {fault.test.branch}": fault for fault in self.ports.runner.lasting()}
        for about, fault in lasting.items():
            batch = self.known.batch_of(fault.test.batch)
            if batch:
                text = words.faulted(batch.stage, fault.name, fault.said, fault.test.branch == broken.MAIN)
                self.troubles.say(about, f"t{text[1:]}")
        for about in [it for it in self.troubles.said if it.startswith("check ") and it not in lasting]:
            self.troubles.end(about)

    def tick(self) -> None:
        """Tells the time while something waits: every few seconds, and at once if a batch has ended. The main branch is looked at right
        before. While the queue is frozen no time is told, so that nothing is staged."""
        if not self.ports.board.is_waiting:
            self.ended_before = self.known.ended
        is_frozen = self.known.freeze is not None
        is_hurried = self.known.ended > self.ended_before and self.clock.jumped_to is None and not is_frozen
        if time.monotonic() < self.next_tick and not is_hurried:
            return
        if self.is_report_due:
            self.report()
        now = self.reading()
        if now is not None and self.ports.board.is_waiting and not is_frozen:
            self.look()
            self.ended_before = self.known.ended
            self.record(Ticked(now))
        elif time.monotonic() >= self.next_tidy:
            self.tidy()
        self.next_tick = time.monotonic() + self.ports.owner.settings.tick_seconds

    def reading(self) -> Optional[int]:
        now = self.clock.reading(self.known.clock, self.ports.clock.now(), self.ports.clock.running())
        self.troubles.put("clock", self.clock.trouble)
        return now

    def report(self) -> None:
        """Tells people what is. Nothing rests on that but whether the time is told."""
        self.is_report_due = self.troubles.is_news = False
        self.next_report = time.monotonic() + REPORT_SECONDS
        self.ports.board.refresh(self.ports.owner.settings.program, self.remarks())
        # What git can't do for now may hold up what was told the bot.
        for queued in [] if self.known.waiting else watching.news_of_queue(self.known, self.ports.board.waiting()):
            self.ports.journal.record(self.known, self.ports.clock.now(), queued)
            self.is_report_due = True

    def remarks(self) -> List[str]:
        """What the report of the queue says besides."""
        opened = self.known.open_changes()
        free, reporters = watching.free_number({*self.known.changes, *self.heads}), self.ports.owner.reporters
        freeze, main = self.known.freeze, self.known.broken
        return [
            *([words.frozen_since(freeze, time_of_day(freeze.at))] if freeze else []),
            *([words.plain(words.broken(main.name, main.base, main.said, main.since))] if main else []),
            f"open: {listed(opened) if opened else 'no change'}; the next free number is {free}",
            f"checks: {', '.join(self.ports.owner.settings.checks) or 'none'}",
            *([f"reported: {', '.join(map(words.plain, reporters))}"] if reporters else []),
            *(words.plain(text) for text in self.said_of_settings),
            *(f"trouble: {words.plain(text)}" for text in self.troubles.texts()),
        ]


def time_of_day(at: int) -> str:
    return time.strftime("%Y-%m-%d %H:%M:%S %z", time.localtime(at))
