"""What is shown of the queue, besides the bot's own reports: a page, one document for programs, and numbers to watch.

`snapshot` has what is to be shown now, as a value. `documents`, `pages`, `markup`, `looks`, `logs` and `metrics` make texts of it. None of
these touches anything. `files` keeps the files up to date.
"""
