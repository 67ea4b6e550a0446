"""The audit: whether each step of a main branch came as the host says, found out by whoever has the repository and a copy of the journal.

It trusts the host in nothing, so it has no line in common with what the host decides: it imports nothing of the core, nor of what is
above the core. What it decides is apart from what it touches:

- `entries` has the rows of a journal and what stands in them, `grammar` the commands of a comment, `story` what was said and ordered up to
  each order to land, `steps` what is right and wrong with each step of the branch, and `shown` the words for people. They are functions of
  values.
- `journal_file` reads the journal, `replay` asks the program for its answers, `objects` reads the repository, and `audit` puts all
  together.
"""
