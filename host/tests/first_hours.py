"""A story of the first hours of a team with a host: an older history, settings that would lock the queue, statuses from elsewhere, and what
comes after a landing. `.ci/test_gate_host` plays it, and says what is due."""
from stories import FILES, Story, must, want

AFTER = 'after_landing = cat >> {room}/after; git rev-parse --git-dir >> {room}/after'


class FirstHours(Story):
    """A team with a history sets a host up in an empty repository. `ci` reports `tests`, for which there is no command."""

    may_push = ("ines", "rosa")

    def causes(self):
        return {3: ("Failed", "build"), 4: ("Failed", "build")}

    def make_repository(self):
        self.must_git("init", "--quiet", "--bare", "--initial-branch=main", str(self.repository), at=self.room)
        people = ["--reviewer", "rosa", "--may-push", "ines"]
        said = self.must_host("init", str(self.repository), "--program", str(self.make_bot()), *people, "--check=build=sh check")
        must(f"whether init says how an older history gets there, in {said}", f"git push --force {self.repository} main" in said)
        self.set("tick_seconds = 10", "tick_seconds = 0.4")
        self.set("look_seconds = 1", "look_seconds = 0.2")
        self.set("sandbox = auto", "sandbox = off")
        self.set("#after_landing = hooks/post-receive", AFTER.format(room=self.room))
        self.set("delete_branches = no", "delete_branches = yes")
        self.must_git("init", "--quiet", "--initial-branch=main", str(self.clone), at=self.room)
        self.must_git("remote", "add", "origin", str(self.repository), at=self.clone)

    def happen(self):
        self.keep_running()
        self.until("the host has run", lambda: self.report("queue"))
        self.an_older_history_comes()
        self.settings_that_nobody_reports_do_not_land()
        self.somebody_else_reports()
        self.bad_settings_do_not_land()
        self.a_push_past_the_queue_locks_it()
        # Who made the last push is looked into a round later.
        self.say("rosa", 3, "bors ping")
        self.until_log(3, "gate: pong")

    def an_older_history_comes(self):
        self.first = self.commit(["-B", "main"], {**FILES, "bors.toml": 'status = ["build"]\n'}, "first")
        push = ("push", "--quiet", "--force", "origin", "main")
        want("whether somebody else may put it there", self.git(*push, at=self.clone, person="otto"), None)
        self.must_git(*push, at=self.clone, person="rosa")
        self.beside.write_text(f"{self.first}\n", encoding="utf-8")
        self.until("the host has the history", lambda: self.is_quiet() and self.report("queue").startswith(f"base {self.first}\n"))
        want("whether that troubles the host", "trouble" in self.report("queue"), False)

    def settings_that_nobody_reports_do_not_land(self):
        self.bring(1, {"bors.toml": 'status = ["build", "tests"]\n'})
        self.until_log(1, "The check build of batch 1 (change 1) failed: its bors.toml requires the status tests, for which there is "
                       "neither a command in the settings of the host nor a reporter.")
        self.must_host("init", str(self.repository), "--reporter", "ci=tests")
        self.until("the reporter is known", lambda: "\nreported: tests\n" in self.report("queue"))
        self.say("rosa", 1, "bors retry")
        self.until_log(1, f"gate: approved again at {self.heads[1][:7]}", "Landed on main as")

    def somebody_else_reports(self):
        self.bring(2, {"two": "2\n"})
        self.until_log(2, "The check build of batch 3 (change 2) succeeded")
        staged = self.must_git("rev-parse", "staging")
        for person, name, state, status in (("eve", "tests", "success", 1), ("ci", "build", "failure", 1), ("ci", "tests", "pending", 0)):
            given = (staged, name, state, "--repository", str(self.repository))
            want(f"whether {person} may report {name}", self.host("status", *given, person=person).returncode, status)
        self.report_status(staged, "success", "--description", "http://ci/7")
        self.until_log(2, "The check tests of batch 3 (change 2) succeeded: as ci reports: http://ci/7.", "Landed on main as")

    def bad_settings_do_not_land(self):
        size = 'status = ["build", "tests"]\nmax_batch_size = "8"\n'
        self.bring(3, {"bors.toml": size})
        self.until_log(3, 'its bors.toml would be refused: max_batch_size = "8" isn\'t taken; it has to be a whole number from 1 to 1000.')
        self.bring(4, {"bors.toml": None})
        self.until_log(4, "with this there would be no bors.toml of at most 10000 bytes any more.")

    def a_push_past_the_queue_locks_it(self):
        """The report of the queue says so at once, and of what is wrong with settings."""
        locked = ("trouble: bors.toml requires the status deploy, for which there is neither a command in the settings of the host nor a "
                  "reporter, so nothing can land")
        for text, due in (
            ('status = ["build", "deploy"]\nmax_batchsize = 8\n', (
                locked, "bors.toml: max_batchsize is no key of the bot's, which passes it over; did you mean max_batch_size?",
            )),
            # What was taken before stays.
            ('status = ["build"]\ntimeout_sec = 0\n', (
                locked, "the settings of main aren't taken: timeout_sec = 0 isn't taken; it has to be a whole number from 1 to 2147483647",
            )),
            ('status = ["build", "tests"]\n', ()),
        ):
            self.must_git("fetch", "--quiet", "origin", at=self.clone)
            commit = self.commit(["--detach", "origin/main"], {"bors.toml": text}, "settings")
            self.must_git("push", "--quiet", "origin", "HEAD:main", at=self.clone, person="ines")
            self.beside.write_text(f"{self.beside.read_text(encoding='utf-8')}{commit}\n", encoding="utf-8")
            self.until(f"the queue says {due}", lambda: self.says(commit, due))

    def says(self, commit, due):
        queue = self.report("queue")
        said = [it for it in queue.split("\n") if "bors.toml" in it or "aren't taken" in it]
        return queue.startswith(f"base {commit}\n") and sorted(said) == sorted(due)

    def bring(self, change, files):
        """A change with these files, from the main branch as it is, which a reviewer approves. A file without a text is taken away."""
        self.must_git("fetch", "--quiet", "origin", at=self.clone)
        self.must_git("checkout", "--quiet", "--detach", "origin/main", at=self.clone)
        for name in (name for name, text in files.items() if text is None):
            (self.clone / name).unlink()
        kept = {name: text for name, text in files.items() if text is not None}
        self.push("ines", change, kept, beginning=["--detach"])
        self.until(f"there is a report of change {change}", lambda: self.report(f"change-{change}"))
        self.say("rosa", change, "bors r+")

    def report_status(self, commit, state, *more):
        self.must_host("status", commit, "tests", state, *more, "--repository", str(self.repository), person="ci")

    def until_log(self, change, *texts):
        self.until(f"the log of change {change} says {texts}", lambda: all(it in self.report(f"log-{change}") for it in texts))


# What is looked at when it is over


def landings_are_told_after(story):
    """What runs after a landing is told of each, from the commit before to the one after."""
    lines = (story.room / "after").read_text(encoding="utf-8").splitlines()
    want("in which folder it ran", set(lines[1::2]), {"."})
    moves = [line.split() for line in lines[::2]]
    orders = [order for _, answer in story.recorded() for reply in answer for order in reply.get("orders", [])]
    landed = [order["commit"] for order in orders if order["order"] == "land"]
    want("the commits that landed", [it[1] for it in moves], landed)
    want("where they landed", {it[2] for it in moves}, {"refs/heads/main"})
    for before, after, _ in moves:
        want(f"what was before {after}", story.must_git("rev-parse", f"{after}^1"), before)


def branches_of_landed_changes_are_gone(story):
    there = {int(name.rpartition("/")[2]) for name in story.must_git("for-each-ref", "--format=%(refname)", "refs/heads/change").split()}
    want("the branches that are left", there, set(story.heads) - story.landed())
    want("what has landed", story.landed(), {1, 2})


def commits_tell_who_approved(story):
    for change in story.landed():
        landed = next(line for line in story.report(f"change-{change}").split("\n") if line.startswith("landed as ")).split()[2]
        message = story.must_git("log", "-1", "--format=%B", landed)
        must(f"whether {message} has the title and the people of change {change}",
             f"change {change}: change {change}\n  {story.heads[change]}, by ines, approved by rosa\n" in message)
        trailers = story.must_git("log", "-1", "--format=%(trailers:only)", landed).split("\n")
        want("the trailers", [line.split(": ")[0] for line in trailers], ["Approved-by", "Batch"])
        want("who approved", trailers[0], "Approved-by: rosa")


def nobody_waited_for_an_hour(story):
    """No batch has ended by its time, and nothing is wrong in the end."""
    must("whether no batch took too long", not any("TimedOut" in story.report(f"log-{change}") for change in story.heads))
    want("whether the host is troubled", "trouble" in story.report("queue"), False)
