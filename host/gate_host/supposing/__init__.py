"""What would have differed under other settings of the bot: what `gate-host what-if` says.

What it decides is apart from what it touches:

- `history` has what people and the world did, by a journal, and what became of each batch. `evidence` says what that tells of a batch that
  was never tested so. `world` plays what happened once more with a bot, and does what that orders in a made-up world. `tally` counts what
  became of the changes, `compared` what differs, and `shown` has the words for people. They are functions of values.
- `asking` reads a copy of the journal and runs the program. No rule of the bot stands here.
"""
