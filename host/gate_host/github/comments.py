"""What people are told, as comments on pull requests: each once, whatever dies on the way."""
import hmac
import re
import secrets
from hashlib import sha256
from typing import Mapping, Sequence, Set

from ..core.orders import table_in
from ..core.words import plain
from ..faults import Unable
from ..journal import Journal
from ..troubles import complain
from .api import Api, Later, Refused, Unanswered

# How far comments are posted, and what is posted behind that.
POSTED, AHEAD = "comments posted up to", "comments posted ahead"
# So many are posted in a refresh, so that many hold nobody up. What is told of a change stands in one comment, as far as it is told by
# then: so many of what was told last are looked at for that, and so much stands in one.
MOST_AT_ONCE, MOST_LOOKED_AT, MOST_IN_ONE = 3, 200, 20
# GitHub takes 65,536 characters in a comment, and refuses all of a longer one. So each text has so many at the most.
MOST_IN_TEXT = 3000
# What wants rights is refused by these, and tried again after so long: the owner may give them. With the first ones GitHub says that the
# repository has another name now.
MAY_BE_RIGHTS = (301, 302, 307, 308, 403, 404)
SECONDS_AFTER_REFUSAL = 60.0
# Nothing is tried more often: then it isn't rights that are missing, as if somebody keeps the host from commenting.
MOST_REFUSALS = 60
TOO_QUICKLY = re.compile(r"too quickly", re.IGNORECASE)
# So long after a comment that wasn't answered it is looked for.
SECONDS_OF_LAG = 10.0
# What makes the marks is written down once, and nobody else can read it.
KEY = "key of comments"
# What somebody said stands there already, and at which place a change waits stands beside its head.
NO_NEWS = re.compile(r"[^\n]* wrote:\n> |It waits in batch [0-9]+\.\Z")
# What Markdown and GitHub would make something else of.
SPECIAL = re.compile(r"([\\`*_{}\[\]()<>#+!|~@&])")
OUTPUT = re.compile(r"\noutput: .*")


class Comments:
    """The comments on GitHub, made of what the journal tells people."""

    name = "what people are told"

    def __init__(self, journal: Journal, api: Api, path: str):
        self.journal, self.api, self.path = journal, api, path
        if not journal.mark(KEY):
            journal.put_mark(KEY, secrets.token_hex(32))
        self.key = journal.mark(KEY).encode()
        if not journal.mark(POSTED):
            # What was told before the first start isn't posted any more.
            journal.put_mark(POSTED, str(journal.count_told()))
        self.posted = int(journal.mark(POSTED))
        self.ahead = {int(it) for it in journal.mark(AHEAD).split()}
        # Whether the next comment may be there already: its request wasn't answered, or a host of before may have died after it.
        self.is_doubtful = True
        self.not_before = 0.0
        # Which one was refused last, and how often.
        self.refused, self.refusals = 0, 0

    @property
    def is_behind(self) -> bool:
        return self.posted < self.journal.count_told() and self.api.now() >= max(self.not_before, self.api.not_before)

    def note(self, changes: Sequence[int]) -> None:
        """What is told stands in the journal."""

    def post_some(self) -> None:
        if self.api.now() < self.not_before:
            raise Later(f"it is tried again in {self.not_before - self.api.now():.0f} seconds")
        for _ in range(MOST_AT_ONCE):
            rows = [it for it in self.journal.told_after(self.posted, MOST_LOOKED_AT) if it[0] not in self.ahead]
            if not rows:
                return
            change = rows[0][1]
            own = [(number, text) for number, its, text in rows if its == change][:MOST_IN_ONE]
            news = {number: text for number, text in own if not NO_NEWS.match(text)}
            if news:
                self.post(change, news)
            self.note_posted({number for number, _ in own}, [number for number, _, _ in rows])

    def note_posted(self, posted: Set[int], due: Sequence[int]) -> None:
        """Notes that these are posted, of all that were due."""
        left = [it for it in due if it not in posted]
        ahead = self.ahead | posted
        self.posted = left[0] - 1 if left else max(ahead)
        self.ahead = {it for it in ahead if it > self.posted}
        with self.journal.step():
            self.journal.set_mark(POSTED, str(self.posted))
            self.journal.set_mark(AHEAD, " ".join(map(str, sorted(self.ahead))))

    def post(self, change: int, news: Mapping[int, str]) -> None:
        """Posts a comment, but for what is there. One that GitHub will never take, as on a change that was locked, is left out."""
        was_doubtful = self.is_doubtful
        try:
            there = self.those_there(change) if was_doubtful else ""
            left = {number: text for number, text in news.items() if self.mark_of(number) not in there}
            if left:
                marks = "".join(map(self.mark_of, left))
                self.send(change, "\n\n".join([*map(markdown, left.values()), marks]), was_doubtful)
        except Refused as refused:
            self.is_doubtful = was_doubtful
            if self.may_be_taken_later(change, next(iter(news)), refused):
                raise Unable(f"{refused}; gate-host doctor says what the host may not do") from refused
            complain(f"change {change} can't be commented on: {refused}")
        self.is_doubtful = False

    def may_be_taken_later(self, change: int, number: int, refused: Refused) -> bool:
        """Whether GitHub may take later what it refuses now. If that can't be told, it may, but not for ever: it holds up all others."""
        if refused.status not in MAY_BE_RIGHTS and not TOO_QUICKLY.search(str(refused)):
            return False
        self.refused, self.refusals = number, self.refusals + 1 if self.refused == number else 1
        self.not_before = self.api.now() + SECONDS_AFTER_REFUSAL
        is_lost = self.refusals > MOST_REFUSALS or (refused.status in MAY_BE_RIGHTS and self.is_out_of_reach(change))
        self.not_before = 0.0 if is_lost else self.not_before
        return not is_lost

    def is_out_of_reach(self, change: int) -> bool:
        """Whether nobody comments on a change any more: it is locked, or GitHub shows others and not this one, as if its author is gone."""
        try:
            return table_in(self.api.get(f"{self.path}/pulls/{change}")).get("locked") is True
        except Refused as refused:
            if refused.status != 404:
                raise
        self.api.get(f"{self.path}/pulls", per_page=1)
        return True

    def send(self, change: int, body: str, was_doubtful: bool) -> None:
        """Sends a comment. If it wasn't sent, what was in doubt before still is: a part of it may be there."""
        self.is_doubtful = True
        try:
            self.api.post(f"{self.path}/issues/{change}/comments", {"body": body})
        except Unanswered:
            # GitHub may list it a little later.
            self.not_before = self.api.now() + SECONDS_OF_LAG
            raise
        except Later:
            self.is_doubtful = was_doubtful
            raise

    def those_there(self, change: int) -> str:
        """All comments on a change."""
        return "\n".join(str(table_in(it).get("body")) for it in self.api.all(f"{self.path}/issues/{change}/comments"))

    def mark_of(self, number: int) -> str:
        """What a comment is known by, and nobody else can write before it is there."""
        return f"<!-- gate:{number}:{hmac.new(self.key, str(number).encode(), sha256).hexdigest()[:16]} -->"


def markdown(text: str) -> str:
    """A text as Markdown that shows it as it is. No name in it calls anybody, and no line of it is a command."""
    lines = plain(OUTPUT.sub("", text)).split("\n")
    shown = "  \n".join(SPECIAL.sub(r"\\\1", line).replace("\\@", "@\u200b") for line in lines)
    return shown if len(shown) <= MOST_IN_TEXT else f"{shown[:MOST_IN_TEXT]} ..."
