"""Why a change isn't on the main branch yet: what `gate-host explain` says, for now or for any moment of the journal.

What it decides is apart from what it touches:

- `events` has the deliveries of a journal up to a moment, each with its answer, `courses` what became of each batch that was ordered,
  `lives` how each change was approved and left the queue, `records` what the program says of that moment, `explained` what follows for
  one change, and `shown` the words for people. They are functions of values.
- `asking` reads a copy of the journal, runs the program over it, and asks it by made-up comments. No rule of the bot stands here.
"""
