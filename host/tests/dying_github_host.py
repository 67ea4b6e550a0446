#!/usr/bin/env python3
"""gate-host of a repository on GitHub, which dies at each of its own steps once: before the step is written down, and after.

    dying_github_host.py MARKS PART PARTS ARGUMENT..

MARKS is a folder with a mark for each death. Steps are those of dying_host.py, each mark of the journal by its name, webhooks that are
taken, a comment that is looked for, sent or posted, one that is taken, and a status of a head that is set. It dies at those of one part
alone: each step belongs to one of the parts, which are counted from 0.
"""
import re
import sys
import zlib

sys.dont_write_bytecode = True
marks, part, parts, *words = sys.argv[1:]
# What dying_host.py reads of its own arguments.
sys.argv[1:] = [marks, *words]

import dying_host  # noqa: E402

from gate_host.github import comments, head_statuses, hints, pulls  # noqa: E402

die_of_all, name_of_any = dying_host.die_first, dying_host.name_of_step


def die_of_part(name):
    if zlib.crc32(name.encode()) % int(parts) == int(part):
        die_of_all(name)


def name_of_step(frame):
    """A step that sets a mark is named by the mark as well, without the number of a change."""
    name = frame.f_locals.get("name")
    return "-".join([name_of_any(frame), *(re.findall("[A-Za-z]+", name) if isinstance(name, str) else [])])


if __name__ == "__main__":
    dying_host.die_first, dying_host.name_of_step = die_of_part, name_of_step
    for cls, method in (
        (comments.Comments, "post"), (comments.Comments, "those_there"), (pulls.PullRequests, "remove"),
        (pulls.PullRequests, "read_comments"), (pulls.PullRequests, "look"), (hints, "take"), (head_statuses.HeadStatuses, "send"),
        (head_statuses.HeadStatuses, "put"),
    ):
        dying_host.calls_die(cls, method)
    sys.exit(dying_host.main())
