"""What a push may do, and what follows from it: refs of pull requests, changes that close as merged, and webhooks."""
from collections import deque
from typing import Optional

from .events import Events
from .model import ROLES, Protection, Pull, Repository, Ruleset, User, World, has_succeeded
from .shapes_of_checks import FORBIDDEN, ShapesOfChecks
from .tokens import Asker

HEADS = "refs/heads/"
NOT_NAMED = "You're not authorized to push to this branch."
# GitHub's numbers of the roles that may pass rulesets by.
NUMBERED = {2: "maintain", 4: "write", 5: "admin"}
# Whose name the merges have that GitHub makes by itself.
BY_ITSELF = ("GitHub", "noreply@github.com")


def passes(repository: Repository, ruleset: Ruleset, asker: Asker) -> bool:
    """Whether a ruleset lets who asks pass by."""
    if asker.token:
        return asker.app is not None and asker.app.id in ruleset.apps
    role = repository.role_of(asker.user)
    return any(ROLES[role] >= ROLES[NUMBERED[number]] for number in ruleset.roles)


def pattern_of(name: str, repository: Repository) -> str:
    """The refs of a ruleset, as the shell has patterns."""
    return {"~ALL": f"{HEADS}*", "~DEFAULT_BRANCH": HEADS + repository.default_branch}.get(name, name)


class Pushes:
    """What pushes do."""

    def __init__(self, world: World, shapes: ShapesOfChecks, events: Events) -> None:
        self.world, self.shapes, self.events = world, shapes, events
        # As long as it is set nothing follows from pushes, as GitHub may take its time; `release` has it follow.
        self.held = False
        self.due: deque = deque()

    # What is refused

    def rules_for(self, repository: Repository, asker: Asker) -> str:
        """What the hook of the repository refuses to who asks, as lines."""
        with self.world.lock:
            lines = [line for guard in repository.protections for line in self.lines_of_guard(repository, guard, asker)]
            for ruleset in repository.rulesets:
                if ruleset.enforcement == "active" and not passes(repository, ruleset, asker):
                    lines += [line for name in ruleset.include for line in self.lines_of_ruleset(repository, ruleset, name)]
            return "\n".join(lines)

    def lines_of_guard(self, repository: Repository, guard: Protection, asker: Asker) -> list:
        """What the older protection refuses. Apps have no role, so it is the same for each that isn't named."""
        pattern, is_admin = HEADS + guard.pattern, asker.token is None and repository.role_of(asker.user) == "admin"
        if is_admin and not guard.enforce_admins:
            return []
        lines = [] if guard.deletions else [f"GH006 deletion {pattern} Cannot delete a protected branch"]
        if not guard.force_pushes:
            lines.append(f"GH006 non_fast_forward {pattern} Cannot force-push to this branch")
        if guard.users is None and guard.apps is None:
            lines += [f"GH006 update {pattern} {FORBIDDEN['pull_request']}"] if guard.reviews else []
        elif asker.token:
            is_named = asker.app is not None and asker.app.slug in (guard.apps or [])
            lines += [] if is_named else [f"GH006 update {pattern} {NOT_NAMED}"]
        else:
            is_named = asker.user is not None and asker.user.login.lower() in [it.lower() for it in guard.users or []]
            lines += [] if is_named else [f"GH006 update {pattern} {NOT_NAMED}"]
        return lines + self.checks_due(repository, f"GH006 checks {pattern}", guard.checks or [])

    def lines_of_ruleset(self, repository: Repository, ruleset: Ruleset, name: str) -> list:
        """What a ruleset refuses for one of its patterns."""
        pattern, lines = pattern_of(name, repository), []
        for rule in ruleset.rules:
            kind = rule["type"]
            if kind == "required_status_checks":
                names = [it["context"] for it in rule["parameters"]["required_status_checks"]]
                lines += self.checks_due(repository, f"GH013 checks {pattern}", names)
            elif kind in FORBIDDEN:
                lines.append(f"GH013 {'update' if kind == 'pull_request' else kind} {pattern} {FORBIDDEN[kind]}")
        return lines

    @staticmethod
    def checks_due(repository: Repository, before: str, names: list) -> list:
        """The line that lets no commit pass but those on which all of these checks succeeded."""
        shas = {it.sha for it in (*repository.statuses, *repository.check_runs)}
        good = [sha for sha in sorted(shas) if all(has_succeeded(repository, sha, name) for name in names)]
        words = f'Required status check "{names[0]}" is expected.' if len(names) == 1 else (
            f"{len(names)} of {len(names)} required status checks are expected.")
        return [f"{before} {','.join(good) or '-'} {words}"] if names else []

    # What follows

    def moved(self, repository: Repository, before: dict, after: dict, pusher: User) -> None:
        """Has follow what comes of a push, by all refs before and after it."""
        for ref in sorted({*before, *after}):
            old, new = before.get(ref), after.get(ref)
            if old != new and not ref.startswith("refs/pull/"):
                self.due.append((repository, ref, old, new, pusher))
        if not self.held:
            self.follow()

    def release(self) -> None:
        """Has follow what was held, and holds no more."""
        self.held = False
        self.follow()

    def follow(self) -> None:
        with self.world.lock:
            while self.due:
                self.follow_one(*self.due.popleft())

    def follow_one(self, repository: Repository, ref: str, old: Optional[str], new: Optional[str], pusher: User) -> None:
        repository.pushed_at = repository.updated_at = self.world.clock.now()
        self.events.push(repository, ref, old, new, pusher)
        if not ref.startswith(HEADS):
            return
        branch = ref[len(HEADS):]
        for pull in self.pulls(lambda it: it.head_repository is repository and it.head_ref == branch):
            self.head_moved(pull, new, pusher)
        for pull in self.pulls(lambda it: it.repository is repository and it.base_ref == branch):
            self.base_moved(pull, old, new, pusher)

    def pulls(self, is_meant) -> list:
        """The open pull requests that are meant, in all repositories."""
        every = [pull for repository in self.world.repositories.values() for pull in repository.pulls.values()]
        return [pull for pull in every if pull.state == "open" and is_meant(pull)]

    def head_moved(self, pull: Pull, new: Optional[str], pusher: User) -> None:
        if new is None:
            self.close(pull, pusher)
            return
        if new == pull.head_sha:
            return
        before = pull.head_sha
        self.set_head(pull, new)
        pull.updated_at = self.world.clock.now()
        if not pull.repository.bare.is_ancestor(before, new):
            pull.forced.append((pull.updated_at, new, pusher))
        self.events.pull_request("synchronize", pull, pusher, {"before": before, "after": new})
        if pull.repository.bare.is_ancestor(new, pull.base_sha):
            # Nothing is left of it.
            self.close(pull, pusher)

    def base_moved(self, pull: Pull, old: Optional[str], new: Optional[str], pusher: User) -> None:
        """A pull request whose head came to its base branch is merged, by whomever."""
        if new is None:
            self.close(pull, pusher)
        elif pull.repository.bare.is_ancestor(pull.head_sha, new):
            pull.merge_commit_sha = self.commit_that_merged(pull, old, new)
            pull.merged_at, pull.merged_by = self.world.clock.now(), pusher
            self.close(pull, pusher)
        else:
            self.try_merge(pull)

    @staticmethod
    def commit_that_merged(pull: Pull, old: Optional[str], new: str) -> str:
        """The first commit of the base branch that has the head."""
        bare = pull.repository.bare
        on_branch = bare.between(old if old and bare.is_ancestor(old, new) else None, new, "--first-parent")
        return next((sha for sha in on_branch if bare.is_ancestor(pull.head_sha, sha)), new)

    def close(self, pull: Pull, who: User) -> None:
        pull.state = "closed"
        pull.closed_at = pull.updated_at = self.world.clock.now()
        pull.repository.bare.point(f"refs/pull/{pull.number}/merge", None)
        self.events.pull_request("closed", pull, who)

    def set_head(self, pull: Pull, sha: str) -> None:
        """Points the ref of a pull request at a commit, which may come out of a fork."""
        bare = pull.repository.bare
        if pull.head_repository:
            bare.take(pull.head_repository.bare, sha)
        pull.head_sha = sha
        bare.point(f"refs/pull/{pull.number}/head", sha)
        pull.base_sha = bare.sha(HEADS + pull.base_ref) or pull.base_sha
        self.try_merge(pull)

    def try_merge(self, pull: Pull) -> None:
        """Makes the merge by which GitHub tries whether a pull request can be merged."""
        bare = pull.repository.bare
        base = bare.sha(HEADS + pull.base_ref)
        made = bare.merge(base, pull.head_sha, BY_ITSELF) if base else None
        pull.mergeable = made is not None
        pull.merge_commit_sha = made
        bare.point(f"refs/pull/{pull.number}/merge", made)
