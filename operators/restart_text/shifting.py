"""A shift against outages: who wins the game of outage and crew, what the crew brings back for each machine that is lost, and which
machines to keep on. Every answer is the library's: restart_game says who wins, restart_decide whether there is a plan."""
from dataclasses import dataclass

from .answers import BadAnswer
from .library import PASSING
from .sentences import counted, listed, machine, machines, table
from .words import nodes_of

WAITS = {1: "no machine has reported", 2: "no majority of the kept view is on", 3: "fewer machines are on than the least group size",
         4: "no log of shard %d", 5: "subgroup %d cannot be laid out"}


@dataclass(frozen=True)
class Blow:
    """A first move of the outage, and what the crew can do."""

    lost: int | None  # the machine that is lost; None: the outage passes
    answers: tuple  # the machines that the crew can bring back, and then hold for the rounds that are left
    passes: bool  # the crew has nothing to bring back
    plan: bool  # after some turn of the crew there is a plan
    wait: object  # the Wait with every machine on but this one; None where there is a plan then
    next_loss: int | None  # where there is a plan and the crew cannot hold: what is lost next, after its first turn that has a plan

    @property
    def held(self):
        """Whether the crew can hold."""
        return bool(self.answers) or self.passes and self.plan and self.next_loss is None


@dataclass(frozen=True)
class Shift:
    settings: object
    rounds: int
    on: tuple
    first: int | None  # what the outage begins with where it wins, PASSING among them; None: the crew can hold
    blows: tuple  # of Blow, ascending; none in a game of no rounds

    @property
    def keep(self):
        """The machines without which there is no plan, whatever the crew brings back."""
        return [blow.lost for blow in self.blows if blow.lost is not None and not blow.plan]

    @property
    def needed(self):
        """Those without which there is none whoever else is on."""
        return [blow.lost for blow in self.blows if blow.lost is not None and blow.wait]


def shift(settings, games, held, rounds):
    """The shift with these machines on, and the Number by which the library refuses it; one of the two is None."""
    first, refused = games.game(held, rounds)
    if refused:
        return None, refused
    blows = tuple(blow(games, len(settings.set_of), held, lost, rounds) for lost in (sorted(nodes_of(held)) or [None])) if rounds else ()
    found = Shift(settings, rounds, tuple(sorted(nodes_of(held))), first, blows)
    lost = [PASSING if one.lost is None else one.lost for one in blows if not one.held]
    if (min(lost) if lost else None) != first:
        raise BadAnswer("restart_game answers otherwise than restart_decide and the games after it")
    return found, None


def blow(games, count, held, lost, rounds):
    """What the crew can do once this machine is lost."""
    everyone = (1 << count) - 1
    fewer = held & ~(1 << lost) if lost is not None else held
    back = [node for node in range(count) if not fewer >> node & 1 and node != lost]
    answers, plan, next_loss = [], False, None
    for node in back or [None]:
        after = fewer if node is None else fewer | 1 << node
        if games.decided(sorted(nodes_of(everyone & ~after))):
            continue
        then, _ = games.game(after, rounds - 1)
        if then is None and back:
            answers.append(node)
        elif then is not None and not plan:
            next_loss = then
        plan = True
    wait = games.decided([lost]) if lost is not None else None
    return Blow(lost, tuple(answers), not back, plan, wait, None if answers else next_loss)


def wait_text(wait):
    text = WAITS[wait.reason]
    return text % wait.value if "%" in text else text


def lines(found):
    """The shift in sentences and a table."""
    settings, rounds = found.settings, counted(found.rounds, "round")
    on = machines(settings, found.on)
    told = ["On: %s." % on if found.on else "No machine is on."]
    if found.first is None:
        told.append("The crew can hold for %s: whatever machine is lost in each, there is a plan once it has brought one back." % rounds
                    if found.rounds else "A shift of no rounds is the crew's.")
    elif found.first == PASSING:
        told.append("The outage can win within %s: it passes first, for no machine is on." % rounds)
    else:
        told.append("The outage can win within %s: it takes %s first." % (rounds, machine(settings, found.first)))
    if found.blows:
        told += ["", *table([("lost", "bring back", "then"), *(row(settings, one, found.rounds) for one in found.blows)]), ""]
        told.append(keep_line(found))
    return told


def row(settings, one, rounds):
    """A row of the table: what is lost, what the crew brings back, and what follows."""
    lost = settings.name(one.lost) if one.lost is not None else "(nothing)"
    if one.answers:
        others = [settings.name(node) for node in one.answers[1:]]
        back = settings.name(one.answers[0]) + (" (or %s)" % listed(others, "or") if others else "")
        return lost, back, holds(rounds)
    if one.held:
        return lost, "nothing is off", holds(rounds)
    if one.plan:
        return lost, "nothing helps", "a plan for now; the outage goes on with %s and wins" % next_name(settings, one)
    without = "; without it %s, whoever is on" % wait_text(one.wait) if one.wait else ""
    return lost, "nothing helps", "no plan" + without


def next_name(settings, one):
    return "nothing" if one.next_loss == PASSING else machine(settings, one.next_loss)


def holds(rounds):
    return "a plan" if rounds == 1 else "a plan, and %s more can be held" % counted(rounds - 1, "round")


def keep_line(found):
    settings = found.settings
    if not found.on:
        return "Keep on at all costs: none, for none is on. Switch machines on first."
    if found.keep:
        needed = " There is no plan without %s, whoever else is on." % machines(settings, found.needed, "or") if found.needed else ""
        return "Keep on at all costs: %s.%s" % (machines(settings, found.keep), needed)
    if found.first is None:
        return "Keep on at all costs: none; each loss can be made good."
    first = next(one for one in found.blows if one.lost == found.first)
    return ("Keep on at all costs: none by itself. But once %s is lost, keep on %s."
            % (machine(settings, found.first), next_name(settings, first)))
