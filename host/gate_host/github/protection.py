"""The rules of branches on GitHub, held against what the host promises: that it alone moves the main branch, and that it can. Decisions
over what GitHub says of the rules. There are two kinds: rulesets, and the older protection of a branch."""
from dataclasses import dataclass, field
from typing import FrozenSet, Iterator, List, Mapping, Optional, Sequence, Tuple

from ..core.orders import Json, list_in, number_in, table_in, text_in
from ..doctor import Checked, note

RULESETS = "Settings > Rules > Rulesets"
BRANCHES = "Settings > Branches"
# The rule by which nobody moves a branch but those who pass it by.
RESTRICTS = "update"
CHECKS = "required_status_checks"
PULL_REQUEST = "Require a pull request before merging"
# The rules that refuse what the host pushes, with their names on GitHub's pages.
HINDERING = {
    RESTRICTS: "Restrict updates", "pull_request": PULL_REQUEST, "merge_queue": "Require merge queue",
    "required_linear_history": "Require linear history", "required_signatures": "Require signed commits",
    CHECKS: "Require status checks to pass", "required_deployments": "Require deployments to succeed",
    "workflows": "Require workflows to pass before merging", "code_scanning": "Require code scanning results",
}
# Those that refuse what the host does with the branches of tests alone: it pushes these by force, and makes them if they aren't there.
FORCED, MADE = "non_fast_forward", "creation"
HINDERING_TESTS = {**HINDERING, FORCED: "Block force pushes", MADE: "Restrict creations"}
# Rules that let the host's pushes through.
HARMLESS = (FORCED, MADE, "deletion", "copilot_code_review", "branch_name_pattern")
# What GitHub says if who asks passes a ruleset by.
PASSES = {"always": True, "exempt": True, "never": False, "pull_requests_only": False}
ROLES = {2: "the role Maintain", 4: "the role Write", 5: "the role Admin"}
KINDS = {
    "OrganizationAdmin": "owners of the organization", "DeployKey": "deploy keys", "Team": "a team", "Integration": "an app",
    "EnterpriseOwner": "owners of the enterprise", "User": "a user",
}
# Switches of the older protection that refuse what the host pushes.
SWITCHES = {
    "required_linear_history": "Require linear history", "required_signatures": "Require signed commits", "lock_branch": "Lock branch",
}


@dataclass(frozen=True)
class Host:
    """Who the host is on GitHub: the slug of its app, or the login of a user, if GitHub says so."""

    name: str
    is_app: bool
    is_admin: bool = False

    @property
    def called(self) -> str:
        return f"the app {self.name}" if self.is_app else self.name or "the user of the token"

    @property
    def bypass(self) -> str:
        """What to choose in the bypass list of a ruleset, which has no single users."""
        return self.called if self.is_app else f"a team or a role that {self.called} alone has"


@dataclass(frozen=True)
class Rule:
    """A rule at work on a branch: its kind, its ruleset, and the statuses that it asks for."""

    kind: str
    ruleset: int
    place: str
    checks: FrozenSet[str] = frozenset()


@dataclass(frozen=True)
class Ruleset:
    """A ruleset: its name, whether the host passes it by, and who else does; each is none if GitHub doesn't say."""

    name: str
    passes: Optional[bool] = None
    others: Optional[Tuple[str, ...]] = None


@dataclass(frozen=True)
class Older:
    """The older protection of a branch: who may push if not all who may write, what refuses the host's pushes, which statuses it asks for,
    whether it refuses forced pushes, and whether it is for admins as well."""

    pushers: Optional[FrozenSet[str]] = None
    may_host: bool = True
    hindering: Tuple[str, ...] = ()
    checks: FrozenSet[str] = frozenset()
    refuses_force: bool = False
    is_for_admins: bool = True


@dataclass(frozen=True)
class Branch:
    """A branch with the rules for it. It may have an older protection that can't be looked at."""

    name: str
    is_there: bool = True
    rules: Tuple[Rule, ...] = ()
    rulesets: Mapping[int, Ruleset] = field(default_factory=dict)
    has_older: bool = False
    older: Optional[Older] = None

    def ruleset(self, rule: Rule) -> Ruleset:
        return self.rulesets.get(rule.ruleset) or Ruleset(str(rule.ruleset))


# Reading


def rule_in(found: Json) -> Rule:
    table = table_in(found)
    parameters = table_in(table.get("parameters") or {})
    checks = (text_in(table_in(it), "context") for it in list_in(parameters.get("required_status_checks", [])))
    source = table.get("ruleset_source")
    is_own = table.get("ruleset_source_type") == "Repository"
    place = RULESETS if is_own else f"{source}'s Settings > Repository > Rulesets"
    return Rule(text_in(table, "type"), number_in(table, "ruleset_id"), place, frozenset(checks))


def ruleset_in(found: Json, app: Optional[int]) -> Ruleset:
    """A ruleset by itself. Who passes it by is shown to those alone who may change it."""
    table = table_in(found)
    actors = table.get("bypass_actors")
    passes = PASSES.get(str(table.get("current_user_can_bypass")))
    others = None if actors is None else tuple(actor_in(it) for it in map(table_in, list_in(actors)) if not is_host(it, app))
    return Ruleset(text_in(table, "name"), passes, others)


def is_host(actor: Mapping[str, Json], app: Optional[int]) -> bool:
    return app is not None and actor.get("actor_type") == "Integration" and actor.get("actor_id") == app


def actor_in(actor: Mapping[str, Json]) -> str:
    kind, number = str(actor.get("actor_type")), actor.get("actor_id")
    if kind == "RepositoryRole":
        return ROLES.get(number if isinstance(number, int) else 0, "a role")
    return KINDS.get(kind, kind)


def older_in(found: Json, host: Host) -> Older:
    """The older protection. An admin passes it by if it isn't for admins as well."""
    table = table_in(found)
    refuses_force, is_for_admins, pushers = not is_on(table, "allow_force_pushes"), is_on(table, "enforce_admins"), pushers_in(table)
    if host.is_admin and not is_for_admins:
        return Older(pushers, True, (), frozenset(), refuses_force, False)
    hindering = [name for key, name in SWITCHES.items() if is_on(table, key)]
    reviews = table.get("required_pull_request_reviews")
    if reviews is not None and name_of(host) not in named_in(table_in(reviews).get("bypass_pull_request_allowances") or {}):
        hindering.append(PULL_REQUEST)
    checks = table_in(table.get("required_status_checks") or {}).get("contexts", [])
    may_host = pushers is None or name_of(host) in pushers
    return Older(pushers, may_host, tuple(hindering), frozenset(map(str, list_in(checks))), refuses_force, is_for_admins)


def is_on(table: Mapping[str, Json], key: str) -> bool:
    return table_in(table.get(key) or {}).get("enabled") is True


def pushers_in(table: Mapping[str, Json]) -> Optional[FrozenSet[str]]:
    found = table.get("restrictions")
    return None if found is None else named_in(found)


def named_in(found: Json) -> FrozenSet[str]:
    """The users, teams and apps that a list of GitHub's names."""
    table = table_in(found)
    users = {text_in(table_in(it), "login").lower() for it in list_in(table.get("users", []))}
    teams = {f"the team {table_in(it).get('slug')}" for it in list_in(table.get("teams", []))}
    return frozenset({*users, *teams, *(f"the app {table_in(it).get('slug')}" for it in list_in(table.get("apps", [])))})


def name_of(host: Host) -> str:
    return host.called if host.is_app else host.name.lower()


# The main branch


def main_checked(branch: Branch, host: Host, required: Optional[FrozenSet[str]]) -> List[Checked]:
    """Whether the host alone moves the main branch, and whether it can. `required` are the statuses that bors.toml asks for, if that is
    known."""
    hindered = [*hindered_by_rules(branch, HINDERING, host, required), *hindered_by_older(branch, host, required)]
    return [*movers_checked(branch, host), *(hindered or [Checked(True, f"no rule keeps the host from moving {branch.name}")])]


def movers_checked(branch: Branch, host: Host) -> Iterator[Checked]:
    """Whether others than the host move the main branch."""
    restricting = [branch.ruleset(rule) for rule in branch.rules if rule.kind == RESTRICTS]
    if restricting:
        yield Checked(True, f"the ruleset {restricting[0].name} keeps all from moving {branch.name} but those in its bypass list")
        yield from others_checked(restricting, branch)
    elif branch.older and branch.older.pushers is not None:
        others = sorted(branch.older.pushers - {name_of(host)})
        yield Checked(True, f"the protection of {branch.name} says who may push")
        if others:
            yield note(f"{' and '.join(others)} may move {branch.name} past the queue as well, by {BRANCHES} > {branch.name}")
        if not branch.older.is_for_admins:
            yield note(
                f"admins may move {branch.name} past the queue as well, unless Do not allow bypassing the above settings is chosen at "
                f"{BRANCHES} > {branch.name}")
    elif branch.has_older and branch.older is None:
        yield note(
            f"who may push to {branch.name} can't be told, since the host may not look at its protection. At {BRANCHES} > {branch.name} "
            f"see that Restrict who can push to matching branches is chosen, with {host.called} alone")
    else:
        said = f"all who may write may move {branch.name} past the queue, by a push or by GitHub's button"
        yield Checked(False, f"{said}: {how_to_restrict(branch.name, host)}")


def others_checked(restricting: Sequence[Ruleset], branch: Branch) -> Iterator[Checked]:
    """Who else passes all rulesets by that say who may push."""
    shown = [set(it.others) for it in restricting if it.others is not None]
    if not shown:
        place = f"{restricting[0].name} at {RULESETS}"
        yield note(f"GitHub doesn't show the host the bypass list of {place}. Who stands there may move {branch.name} past the queue")
    elif others := set.intersection(*shown):
        yield note(f"{' and '.join(sorted(others))} may move {branch.name} past the queue as well, by the bypass list of the ruleset")


def how_to_restrict(name: str, host: Host) -> str:
    return (
        f"at the repository's {RULESETS} > New ruleset > New branch ruleset choose Enforcement status: Active; in the bypass list "
        f"{host.bypass}, as Always allow; under Target branches {name}; and the rules Restrict updates, Restrict deletions and Block force "
        "pushes")


# What keeps the host out


def tests_checked(branch: Branch, host: Host) -> List[Checked]:
    """Whether the host can push what is tested to a branch of tests. It does so by force."""
    hindered = [*hindered_by_rules(branch, HINDERING_TESTS, host, None), *hindered_by_older(branch, host, None)]
    older = branch.older
    if older and older.refuses_force:
        hindered.append(Checked(False, (
            f"the protection of {branch.name} refuses forced pushes, by which the host puts there what is tested: choose Allow force "
            f"pushes at {BRANCHES} > {branch.name}, or delete that protection")))
    if branch.has_older and older is None:
        hindered.append(note(
            f"the host pushes to {branch.name} by force. At {BRANCHES} > {branch.name} see that Allow force pushes is chosen, or delete "
            "that protection"))
    return hindered or [Checked(True, f"no rule keeps the host from pushing to {branch.name} what is tested")]


def hindered_by_rules(
    branch: Branch, kinds: Mapping[str, str], host: Host, required: Optional[FrozenSet[str]],
) -> Iterator[Checked]:
    """The rules that refuse a push of the host's, unless the host passes them by."""
    for rule in branch.rules:
        ruleset = branch.ruleset(rule)
        if ruleset.passes or not is_hindering(rule, branch, kinds, required):
            continue
        said = f"the rule {kinds.get(rule.kind, rule.kind)} for {branch.name}"
        remedy = remedy_of(rule, ruleset, host, kinds is HINDERING, required)
        if rule.kind not in kinds:
            yield note(f"{said} may refuse pushes of the host. If one is refused, {remedy}")
        elif ruleset.passes is None:
            yield note(f"{said} refuses pushes of the host unless it passes by, which GitHub doesn't say: {remedy}")
        else:
            yield Checked(False, f"{said} refuses pushes of the host: {remedy}")


def is_hindering(rule: Rule, branch: Branch, kinds: Mapping[str, str], required: Optional[FrozenSet[str]]) -> bool:
    """Whether a rule refuses pushes of the host, or may do so. What lands has all statuses that bors.toml asks for."""
    if rule.kind == CHECKS and required is not None:
        return not rule.checks <= required
    if rule.kind == MADE:
        return rule.kind in kinds and not branch.is_there
    return rule.kind in kinds or rule.kind not in HARMLESS


def remedy_of(rule: Rule, ruleset: Ruleset, host: Host, is_main: bool, required: Optional[FrozenSet[str]]) -> str:
    """What to do about a rule. The one that keeps others from moving the main branch has to stay."""
    first = in_words(rule.checks - required) if rule.kind == CHECKS and required is not None else ""
    last = "" if is_main and rule.kind == RESTRICTS else ", or take the rule off"
    return f"{first}add {host.bypass} to the bypass list, as Always allow, at {rule.place} > {ruleset.name}{last}"


def in_words(missing: FrozenSet[str]) -> str:
    """What to do about statuses that a rule asks for, and bors.toml doesn't."""
    return f"add {', '.join(sorted(missing))} to status in bors.toml, or "


def hindered_by_older(branch: Branch, host: Host, required: Optional[FrozenSet[str]]) -> Iterator[Checked]:
    """What of the older protection refuses a push of the host's."""
    older, place = branch.older, f"{BRANCHES} > {branch.name}"
    if older is None:
        if branch.has_older:
            yield note(
                f"whether the protection of {branch.name} keeps the host out can't be told. At {place} see that these aren't chosen: "
                f"{', '.join((PULL_REQUEST, *SWITCHES.values()))}")
        return
    if not older.may_host:
        said = f"the protection of {branch.name} doesn't let the host push"
        yield Checked(False, f"{said}: add {host.called} at {place} > Restrict who can push to matching branches")
    for name in older.hindering:
        yield Checked(False, f"the protection of {branch.name} refuses pushes of the host by {name}: take that off at {place}")
    missing = older.checks - (required or frozenset())
    if missing:
        more = "" if required is None else in_words(missing)
        yield Checked(False, (
            f"the protection of {branch.name} asks for statuses that the host doesn't wait for: {more}take {', '.join(sorted(missing))} "
            f"off at {place} > Require status checks"))
