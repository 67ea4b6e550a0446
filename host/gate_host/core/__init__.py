"""The core of the host: what it decides, apart from what it touches.

Everything that the host learns is a *fact*. The facts are one list, in the order in which they were written down, and what the host knows
is a function of that list and of the bot's answers alone:

- `facts` has each kind of fact, `orders` what the bot answers, `deliveries` what a fact tells the bot.
- `known` has what is known after a list of facts and answers: what is tested, and what people are told. `duties` has what the bot says is
  to be merged, tested and moved, and what of that comes next. `earlier` has what a journal of an earlier version knew, as one fact.
- `watching`, `notes` and `clock` decide: from what was seen and what is known they give the facts to write down.
- `words` has the words for people.

A fact is written down only when all that was told the bot before it has its answer. So the facts and the answers have one order: each fact,
and then the answers to what it tells.

No module here can touch anything: neither files nor processes, neither git nor the bot, nor the clock. A test looks at what they import.
"""
