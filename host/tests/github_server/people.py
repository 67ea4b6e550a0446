"""What people and CI do, as plain methods. Each changes what the server knows, and sends the webhooks that GitHub sends for it.

They act as if by somebody who may: no rule of a branch is asked. Who wants to see a refusal pushes by git, with a token.
"""
from pathlib import Path
from typing import Callable, Optional, Union

from .bare import Bare
from .events import Events, changed_from
from .model import App, CheckRun, Comment, Hook, Issue, Label, Protection, Pull, Repository, Review, Ruleset, Status, User, World
from .pushes import HEADS, Pushes
from .tokens import numbers_in

# The app that GitHub's own CI has.
CI = "github-actions"
Who = Union[str, User]


class NotPossible(Exception):
    """GitHub lets nobody do that."""


class People:
    """All of them."""

    def __init__(self, world: World, events: Events, pushes: Pushes, room: Path) -> None:
        self.world, self.events, self.pushes, self.room = world, events, pushes, room

    def user(self, who: Who) -> User:
        return who if isinstance(who, User) else self.world.user(who)

    # Repositories and who may what

    def organization(self, login: str) -> User:
        return self.world.user(login, "Organization")

    def make_repository(self, owner: Who, name: str, private: bool = False, files: Optional[dict] = None, branch: str = "main",
                        parent: Optional[Repository] = None) -> Repository:
        """A new repository, with a first commit if it is given files. No webhook tells of it."""
        with self.world.lock:
            owned, now = self.user(owner), self.world.clock.now()
            bare = Bare.make(self.room / owned.login / f"{name}.git", branch)
            made = Repository(self.world.next_id(), owned, name, bare, now, branch, private, parent, pushed_at=now, updated_at=now)
            self.world.repositories[made.full_name.lower()] = made
            if files is not None:
                bare.point(HEADS + branch, bare.commit(files, "first", (owned.login, owned.email), date=int(now)))
            return made

    def fork(self, who: Who, repository: Repository) -> Repository:
        """A fork of somebody, with the branches of the repository."""
        made = self.make_repository(who, repository.name, repository.private, None, repository.default_branch, repository)
        made.bare.git("fetch", "--quiet", "--no-write-fetch-head", str(repository.bare.path), "+refs/heads/*:refs/heads/*")
        return made

    def delete_fork(self, fork: Repository) -> None:
        """Deletes a fork. Its pull requests stay, with no repository for their heads, and so do their refs."""
        with self.world.lock:
            del self.world.repositories[fork.full_name.lower()]
            for pull in (it for repository in self.world.repositories.values() for it in repository.pulls.values()):
                if pull.head_repository is fork:
                    pull.head_repository = None

    def set_role(self, repository: Repository, who: Who, role: str) -> User:
        """Gives a person a role: read, triage, write, maintain or admin; or none."""
        with self.world.lock:
            user = self.user(who)
            repository.roles[user.login.lower()] = role
            return user

    def protect(self, repository: Repository, pattern: str, **more) -> Protection:
        """Protects a branch in the older way. With `apps` or `users` nobody else pushes there."""
        with self.world.lock:
            guard = Protection(pattern, **more)
            repository.protections.append(guard)
            return guard

    def add_ruleset(self, repository: Repository, name: str, include: list, kinds: tuple = ("update",), **more) -> Ruleset:
        """Protects branches in the newer way, by rules of these kinds. With `apps` these apps pass by."""
        with self.world.lock:
            ruleset = Ruleset(self.world.next_id(), name, include, [{"type": kind} for kind in kinds], **more)
            ruleset.created_at = self.world.clock.now()
            repository.rulesets.append(ruleset)
            return ruleset

    def install_app(self, owner: Who, slug: str, public_key: str = "", permissions: Optional[dict] = None) -> App:
        """Installs the app for all repositories of an owner. Without a key it can't sign tokens itself."""
        with self.world.lock:
            bot = self.world.user(f"{slug}[bot]", "Bot")
            # Nobody has a token of a bot but by the app.
            bot.token = ""
            app = App(self.world.next_id(), slug, self.user(owner), bot, *(numbers_in(public_key) if public_key else ()))
            app.installation, app.created_at = self.world.next_id(), self.world.clock.now()
            if permissions is not None:
                app.permissions = dict(permissions)
            self.world.app = app
            return app

    def add_hook(self, url: str, secret: str, repository: Optional[Repository] = None, events: Optional[list] = None) -> Hook:
        """Sends webhooks to an address from now on: those of the app, or those of a repository. It gets a ping at once."""
        with self.world.lock:
            wanted = events if events is not None else (self.world.app.events if self.world.app else [])
            hook = Hook(self.world.next_id(), url, secret, list(wanted), repository, created_at=self.world.clock.now())
            self.world.hooks.append(hook)
            self.events.ping(hook)
            return hook

    # Pushes

    def commit(self, repository: Repository, who: Who, files: dict, message: str = "A commit", parents: tuple = ()) -> str:
        """Makes a commit, to which no ref points yet: on top of the default branch, or of these parents."""
        user = self.user(who)
        before = parents or tuple(it for it in (repository.bare.sha(HEADS + repository.default_branch),) if it)
        return repository.bare.commit(files, message, (user.login, user.email), before, int(self.world.clock.now()))

    def push(self, repository: Repository, who: Who, branch: str, sha: Optional[str]) -> None:
        """Points a branch at a commit, by force if need be; with none it is deleted."""
        self.moving(repository, self.user(who), lambda: repository.bare.point(HEADS + branch, sha))

    def push_files(self, repository: Repository, who: Who, branch: str, files: dict, message: str = "A commit") -> str:
        """Pushes a new commit on top of a branch, which begins at the default branch if there is none."""
        tip = repository.bare.sha(HEADS + branch)
        made = self.commit(repository, who, files, message, (tip,) if tip else ())
        self.push(repository, who, branch, made)
        return made

    def moving(self, repository: Repository, who: User, action: Callable[[], object]) -> None:
        """Does something that moves refs, and what follows from that."""
        with repository.pushing:
            before = repository.bare.refs()
            action()
            self.pushes.moved(repository, before, repository.bare.refs(), who)

    # Pull requests

    def open_pull(self, repository: Repository, who: Who, branch: str, title: str = "A change", body: Optional[str] = None,
                  base: str = "main", draft: bool = False, fork: Optional[Repository] = None) -> Pull:
        """Opens a pull request of a branch of the repository, or of a fork."""
        with self.world.lock:
            user, where, now = self.user(who), fork or repository, self.world.clock.now()
            head, tip = where.bare.sha(HEADS + branch), repository.bare.sha(HEADS + base)
            if head is None or tip is None:
                raise NotPossible(f"there is no branch {branch if head is None else base}")
            repository.bare.take(where.bare, head)
            if repository.bare.is_ancestor(head, tip):
                raise NotPossible(f"No commits between {base} and {branch}")
            if any(it.head_repository is where and it.head_ref == branch and it.base_ref == base and it.state == "open"
                   for it in repository.pulls.values()):
                raise NotPossible(f"A pull request already exists for {where.owner.login}:{branch}.")
            number = repository.next_number
            pull = Pull(
                repository, number, self.world.next_id(), self.world.next_id(), user, title, body, where, where.owner, branch, head, base,
                tip, now, now, draft,
            )
            repository.pulls[number] = pull
            self.pushes.set_head(pull, head)
            self.events.pull_request("opened", pull, user)
            return pull

    def propose(self, repository: Repository, who: Who, branch: str, files: dict, message: str = "A change", **more) -> Pull:
        """Pushes a new branch with a commit, and opens a pull request of it."""
        self.push_files(more.get("fork") or repository, who, branch, files, message)
        return self.open_pull(repository, who, branch, message, **more)

    def act(self, action: str, pull: Pull, who: Who, more: Optional[dict] = None) -> None:
        """Notes that a pull request has changed, and tells of it."""
        pull.updated_at = self.world.clock.now()
        self.events.pull_request(action, pull, self.user(who), more)

    def close(self, pull: Pull, who: Who) -> None:
        with self.world.lock:
            if pull.state != "closed":
                self.pushes.close(pull, self.user(who))

    def reopen(self, pull: Pull, who: Who) -> None:
        """Opens a closed pull request again, if its branch is still there and was only added to."""
        with self.world.lock:
            where = pull.head_repository
            head = where.bare.sha(HEADS + pull.head_ref) if where else None
            if where is None or head is None or pull.merged or not where.bare.is_ancestor(pull.head_sha, head):
                raise NotPossible("The branch was merged, force-pushed, recreated or deleted.")
            pull.state, pull.closed_at = "open", None
            self.pushes.set_head(pull, head)
            self.act("reopened", pull, who)

    def make_draft(self, pull: Pull, who: Who) -> None:
        with self.world.lock:
            pull.draft = True
            self.act("converted_to_draft", pull, who)

    def ready(self, pull: Pull, who: Who) -> None:
        with self.world.lock:
            pull.draft = False
            self.act("ready_for_review", pull, who)

    def retarget(self, pull: Pull, who: Who, base: str) -> None:
        """Has a pull request be for another branch."""
        with self.world.lock:
            tip = pull.repository.bare.sha(HEADS + base)
            if tip is None:
                raise NotPossible(f"there is no branch {base}")
            changes = {"base": changed_from(ref=pull.base_ref, sha=pull.base_sha)}
            pull.base_ref, pull.base_sha = base, tip
            self.pushes.try_merge(pull)
            self.act("edited", pull, who, {"changes": changes})

    def edit(self, pull: Pull, who: Who, title: Optional[str] = None, body: Optional[str] = None) -> None:
        """Changes the title or the text of a pull request."""
        with self.world.lock:
            changes = {}
            if title is not None:
                changes.update(changed_from(title=pull.title))
                pull.title = title
            if body is not None:
                changes.update(changed_from(body=pull.body))
                pull.body = body
            self.act("edited", pull, who, {"changes": changes})

    def label(self, pull: Pull, who: Who, name: str) -> None:
        with self.world.lock:
            label = pull.repository.labels.setdefault(name.lower(), Label(self.world.next_id(), name))
            if label not in pull.labels:
                pull.labels.append(label)
                pull.updated_at = self.world.clock.now()
                self.events.labeled("labeled", pull, label, self.user(who))

    def unlabel(self, pull: Pull, who: Who, name: str) -> None:
        with self.world.lock:
            label = pull.repository.labels.get(name.lower())
            if label in pull.labels:
                pull.labels.remove(label)
                pull.updated_at = self.world.clock.now()
                self.events.labeled("unlabeled", pull, label, self.user(who))

    def merge_by_button(self, pull: Pull, who: Who) -> str:
        """Merges a pull request past all queues, as by GitHub's button."""
        bare, user = pull.repository.bare, self.user(who)
        tip = bare.sha(HEADS + pull.base_ref)
        made = bare.merge(tip, pull.head_sha, (user.login, user.email)) if tip else None
        if made is None:
            raise NotPossible("Pull Request is not mergeable")
        self.push(pull.repository, user, pull.base_ref, made)
        return made

    # What is said

    def open_issue(self, repository: Repository, who: Who, title: str = "An issue", body: Optional[str] = None) -> Issue:
        """Opens an issue that is no pull request. It isn't told, since the app doesn't ask for that event; comments on it are."""
        with self.world.lock:
            number, now = repository.next_number, self.world.clock.now()
            issue = Issue(repository, number, self.world.next_id(), self.user(who), title, body, now, now)
            repository.issues[number] = issue
            return issue

    def comment(self, issue: Union[Pull, Issue], who: Who, body: str) -> Comment:
        """Comments on a pull request, or on an issue. Of what is typed on GitHub's page lines end with CR and LF."""
        with self.world.lock:
            now, user = self.world.clock.now(), self.user(who)
            comment = Comment(self.world.next_id(), issue, user, body, now, now)
            issue.repository.comments[comment.id] = comment
            issue.updated_at = now
            self.events.comment("created", comment, user)
            return comment

    def edit_comment(self, comment: Comment, who: Who, body: str) -> None:
        with self.world.lock:
            changes = changed_from(body=comment.body)
            comment.body, comment.updated_at = body, self.world.clock.now()
            self.events.comment("edited", comment, self.user(who), changes)

    def delete_comment(self, comment: Comment, who: Who) -> None:
        with self.world.lock:
            del comment.issue.repository.comments[comment.id]
            self.events.comment("deleted", comment, self.user(who))

    def review(self, pull: Pull, who: Who, state: str, body: str = "", commit: Optional[str] = None) -> Review:
        """Reviews a pull request: APPROVED, CHANGES_REQUESTED or COMMENTED, at its head or at another commit."""
        with self.world.lock:
            user = self.user(who)
            if state != "COMMENTED" and user is pull.user:
                raise NotPossible("Can not approve your own pull request")
            now = self.world.clock.now()
            review = Review(self.world.next_id(), pull, user, state, commit or pull.head_sha, body, now)
            pull.repository.reviews[review.id] = review
            pull.updated_at = now
            self.events.review("submitted", review, user)
            return review

    def dismiss(self, review: Review, who: Who) -> None:
        with self.world.lock:
            review.state = "DISMISSED"
            review.pull.updated_at = self.world.clock.now()
            self.events.review("dismissed", review, self.user(who))

    # What CI says

    def status(self, repository: Repository, who: Who, sha: str, context: str, state: str, description: Optional[str] = None,
               target_url: Optional[str] = None) -> Status:
        """A status of a commit: pending, success, failure or error."""
        with self.world.lock:
            given = Status(self.world.next_id(), sha, state, context, description, target_url, self.user(who), self.world.clock.now())
            repository.statuses.append(given)
            self.events.status(repository, given)
            return given

    def ci_app(self, slug: str = CI) -> App:
        """The app whose CI gives check runs. Its bot is a user as well."""
        bot = self.world.user(f"{slug}[bot]", "Bot")
        return App(bot.id + 1, slug, self.organization("github"), bot, permissions={"checks": "write"}, events=["push"])

    def check_run(self, repository: Repository, sha: str, name: str, status: str = "completed", conclusion: Optional[str] = "success",
                  app: str = CI) -> CheckRun:
        """A check run of a commit: queued, in_progress, or completed with a conclusion. A later one of its name stands before it."""
        with self.world.lock:
            now, ci = self.world.clock.now(), self.ci_app(app)
            suite = next((it.suite for it in repository.check_runs if it.sha == sha and it.app.id == ci.id), None)
            run = CheckRun(self.world.next_id(), suite or self.world.next_id(), sha, name, "queued", None, ci, now)
            self.set_run(run, status, conclusion)
            repository.check_runs.append(run)
            self.events.check_run("completed" if status == "completed" else "created", repository, run, ci.user)
            return run

    def finish_run(self, repository: Repository, run: CheckRun, conclusion: str = "success", status: str = "completed") -> None:
        """Says how a check run goes on."""
        with self.world.lock:
            self.set_run(run, status, conclusion)
            self.events.check_run("completed" if status == "completed" else "created", repository, run, run.app.user)

    def set_run(self, run: CheckRun, status: str, conclusion: Optional[str]) -> None:
        is_over = status == "completed"
        run.status, run.conclusion = status, conclusion if is_over else None
        run.completed_at = self.world.clock.now() if is_over else None
