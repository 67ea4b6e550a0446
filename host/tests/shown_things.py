"""Snapshots and a change to be shown by tests of the page and by its screenshots."""
import sys
from dataclasses import replace
from pathlib import Path

sys.path.insert(0, str(Path(__file__).resolve().parent.parent))

from gate_host.core.broken import Broken  # noqa: E402
from gate_host.core.estimates import Estimate  # noqa: E402
from gate_host.core.freeze import Freeze  # noqa: E402
from gate_host.core.words import SINCE_PUSH  # noqa: E402
from gate_host.showing.change_page import AroundChange  # noqa: E402
from gate_host.showing.documents import ChangeDocument, LandedDocument  # noqa: E402
from gate_host.showing.logs import Entry  # noqa: E402
from gate_host.showing.snapshot import (  # noqa: E402
    ShownBatch, ShownChange, ShownCheck, ShownLanding, ShownMember, ShownSettings, Snapshot,
)

# 30 November 2026, 14:05:20 UTC.
NOW = 1796047520
COMMITS = [f"{(number * 2654435761) % 2 ** 32:08x}" * 5 for number in range(1, 60)]
TITLES = {
    409: "Parser: keep the place of each token", 411: "Retry a fetch that was cut off", 412: "Drop the old cache format",
    414: "A faster look-up of names", 415: "Docs: how a release is made", 417: "Update the lock file", 418: "Tests for leap seconds",
    420: "Try the allocator of the new library", 421: "Read the time zone from the settings", 422: "Rename Session to Connection",
    424: "Fix a leak when a client goes away early",
}
SETTINGS = 'status = ["build", "test", "lint"]\ntimeout_sec = 1800\nmax_batch_size = 4\nblock_labels = ["wip"]\n'
AUTHORS = ("ines", "otto", "vera", "milo")


def change(number, *approvers, said_by="", at=None, left="", labels=()):
    who = AUTHORS[number % 4]
    return ShownChange(
        number, TITLES.get(number, f"Change {number}"), COMMITS[number % 50], who, approvers, said_by or "".join(approvers[:1]), labels,
        bool(approvers), at, left)


def landing(batch, minutes, *numbers):
    members = tuple(ShownMember(it, LANDED[it % len(LANDED)], COMMITS[it % 50], AUTHORS[it % 4], ("rosa",), "rosa") for it in numbers)
    return ShownLanding(batch, COMMITS[batch % 50], COMMITS[(batch + 1) % 50], NOW - 60 * minutes, members)


LANDED = (
    "Say which file couldn't be read", "Sort names in the order of their bytes", "Make the first start faster", "Close the socket last",
    "Use the system's list of zones", "Test what happens at a full disk", "Shorter messages for a lost connection",
)
IN_FORCE = ShownSettings(SETTINGS, COMMITS[7], "", ("build", "test", "lint"), 1800, ("build", "test"), (("lint", ("ci",)),))
REMARKS = ("open: changes 420, 421, 422, 424; the next free number is 425", "checks: build, test", "reported: lint")

CALM = Snapshot(
    "project.git", "main", COMMITS[8], NOW - 3600, NOW, None, "", 10.0, (), (change(421), change(424)), (421, 424),
    tuple(landing(88 - place, 40 + 95 * place, *range(400 - 3 * place, 400 - 3 * place + 1 + place % 3)) for place in range(5)),
    IN_FORCE, REMARKS, (),
)
BUSY = replace(
    CALM, clock=NOW - 4, changes=(
        change(409, "rosa", at=NOW - 1500), change(411, "rosa", at=NOW - 1400), change(412, "vera", "otto", said_by="rosa", at=NOW - 900),
        change(414, "rosa", at=NOW - 800), change(415, "otto", at=NOW - 600), change(417, "rosa", at=NOW - 260),
        change(418, "rosa", at=NOW - 90), change(420, labels=("experiment",)), change(421),
        change(422, left="it fails the check test (Failed)"), change(424, labels=("wip", "net")),
    ),
    batches=(
        ShownBatch(89, "staging", "staged", 0, (409, 411), COMMITS[30], NOW - 400, NOW + 1400, (
            ShownCheck("build", "success"), ShownCheck("test", "open"), ShownCheck("lint", "pending")), "the checks test, lint"),
        ShownBatch(91, "staging", "waiting", 5, (417,), since=NOW - 260, waits_for="batch 89"),
        ShownBatch(90, "staging", "waiting", 0, (412, 414, 415), since=NOW - 900, waits_for="the 2 batches before it"),
        ShownBatch(92, "staging", "waiting", 0, (418,), since=NOW - 90, waits_for="the 3 batches before it"),
        ShownBatch(93, "trying", "staged", 0, (420,), COMMITS[31], NOW - 120, NOW + 1680, (
            ShownCheck("build", "failure"), ShownCheck("test", "open"), ShownCheck("lint", "success")), "the check test"),
    ),
    not_approved=(420, 421, 422, 424),
    estimates={it: Estimate(NOW + first, NOW + last, 12) for it, first, last in (
        (409, 200, 500), (411, 200, 500), (417, 700, 1200), (412, 1200, 2100), (414, 1200, 2100), (415, 1200, 2100), (418, 1700, 3000))},
)
FROZEN = replace(BUSY, freeze=Freeze("rosa", "release 4.2 is being cut; back at 16:00", NOW - 1200), estimates={}, batches=tuple(
    replace(it, waits_for="the end of the freeze") if it.state == "waiting" else it for it in BUSY.batches))
BROKEN = replace(
    BUSY, batches=(), changes=(change(421), change(422, left="it fails the check test (Failed)")), not_approved=(421, 422), estimates={},
    broken=Broken("test", COMMITS[8], "it ended with status 1 after 212 seconds", "88-0-test", NOW - 700, SINCE_PUSH),
    troubles=("the branch staging is at a commit that the host didn't make",))
ENDED = replace(CALM, ended=NOW - 60)

AROUND = AroundChange("project.git", "main", "", NOW)
REPORT = "\n".join([
    "change    399", "author    vera", f"head      {COMMITS[49]}", "state     landed", "priority  0", "labels    -", "reviews   -",
    "delegates otto", "approved  -", "trying    no"]) + "\n"
CHANGE = ChangeDocument(
    1, 399, "Say which file couldn't be read", "landed", COMMITS[49], "vera", (), (), (), "", None,
    LandedDocument(88, COMMITS[39], COMMITS[49], ("otto",), "rosa", NOW - 2400), REPORT)
LOG = tuple(Entry(NOW - 5000 + 200 * place, it) for place, it in enumerate((
    "otto wrote:\n> Looks right. One name is short, otherwise fine.\n> bors delegate=otto", "gate: otto may approve it now",
    "rosa wrote:\n> bors r=otto", "gate: approved at 9d7b2c1 for otto", "It waits in batch 88.",
    "Batch 88 (change 399) is merged onto 1c0ffee as b7e2a90, which is tested now.",
    "The check lint of batch 88 (change 399) succeeded: as ci reports: https://ci.example.com/7431.",
    "The check build of batch 88 (change 399) succeeded: it ended with status 0 after 61 seconds.\noutput: 88-0-build",
    "The check test of batch 88 (change 399) succeeded: it ended with status 0 after 204 seconds.\noutput: 88-0-test",
    f"Landed on main as {COMMITS[39]}, with change 399. Approved by otto (said by rosa).")))
