"""What the reports show of a view beside what the planner makes of them. A view is served once all its members have it on disk, and a machine
reports its latest view that counts (docs/ASSUMPTIONS.md, duties 1, 6 and 16). So a member of a view that is back with another one shows that the
view was never served, if the duties were kept.

The judgement is that of restart_open_view; the tests compare the two."""
from dataclasses import dataclass

from .model import View
from .sentences import listed, machines

SURE, NEVER, UNDECIDED, CONTRADICTED = 1, 2, 3, 4  # as RESTART_VIEW_SURE and so on


def judged(members, known, have, lack, passed):
    """Whether an open view counts, by sets of machines as restart_open_view takes them."""
    sure = bool(known) or bool(members) and members <= have
    never = bool(members & lack) or bool(passed)
    return CONTRADICTED if sure and never else SURE if sure else NEVER if never else UNDECIDED


@dataclass(frozen=True)
class Story:
    """A view as some machines report it."""

    view: View
    have: frozenset  # the machines that report it
    lack: frozenset  # its members that are back and report another one of its number, or an older one
    away: frozenset  # its members that have not reported, and those that report a later view, in whose past it may be

    @property
    def finding(self):
        """Taken as an open view on the machines that report it."""
        return judged(self.view.members, frozenset(), self.have, self.lack, frozenset())


def story(view, latest):
    """The view by the latest report of each machine."""
    have = frozenset(node for node, report in latest.items() if report.view == view)
    lack = frozenset(node for node, report in latest.items() if report.view.number <= view.number and report.view != view) & view.members
    return Story(view, have, lack, view.members - have - lack)


def kept_story(gathered):
    """The kept view's story; None before the first report."""
    return story(gathered.kept, gathered.reports) if gathered.kept else None


def stories_of(number, reports):
    """The views of this number that these reports tell; of a machine its last report of its greatest view counts."""
    latest = {}
    for report in reports:
        if report.node not in latest or report.view.number >= latest[report.node].view.number:
            latest[report.node] = report
    views = []
    for report in latest.values():
        if report.view.number == number and report.view not in views:
            views.append(report.view)
    return [story(view, latest) for view in views]


SERVED = "a view is served only once all its members have it on disk (duty 1)"
SETTLE = ("have the leader ask every machine for its views before it takes a report, and restart_open_view say of each open one whether it counts"
          " (duty 16; restart(3), PERSISTENCE)")


def never_line(settings, one):
    """What the members that are back without the view show."""
    several = len(one.lack) > 1
    return ("View %d was never served if the duties were kept: %s %s of it, back, and %s not logged it, and %s. Then nothing was stored in it."
            % (one.view.number, machines(settings, one.lack), "are members" if several else "is a member", "have" if several else "has", SERVED))


def kept_lines(gathered):
    """What the reports show of the kept view, where a member of it is back without it, and what to do by the service's rule."""
    one, settings = kept_story(gathered), gathered.settings
    if one.finding != NEVER:
        return []
    number, who = one.view.number, machines(settings, one.have)
    return [never_line(settings, one), "Most likely %s." % likely(gathered, one),
            "To do: %s. Where view %d is open on a disk, the answer is that it was never served: the machine forgets it with its logs, on disk, and"
            " reports the view before it. Where %s it to be committed, the answer is that this is contradicted: a disk went back in time, or a duty"
            " was broken; plan nothing until you have found which." % (SETTLE, number, who + (" know" if len(one.have) > 1 else " knows"))]


def likely(gathered, one):
    """How a view came to be reported that a member of it has not logged. A restart that was given up leaves the next number."""
    settings, several = gathered.settings, len(one.have) > 1
    below = max(gathered.reports[node].view.number for node in gathered.held - one.have)
    if not several and one.view.number > below + 1:
        return "the report of %s is damaged: a restart that was given up leaves view %d, the next after %d" % (
            machines(settings, one.have), below + 1, below)
    told = "a restart was given up while it prepared, and %s the view that it left open" % (
        machines(settings, one.have) + (" report" if several else " reports"))
    return told + ("; or the disk of %s went back" % machines(settings, one.lack, "or") if several else "")


STOP = "Do not go yet: a duty was broken or a disk went back, and what is proved of plans supposes neither."


def undecided_line(gathered):
    """Where no member of the kept view is back without it."""
    one = kept_story(gathered)
    if one.finding == SURE:
        return "All members of view %d have it, so it counts." % one.view.number
    return ("No other member of view %d is back, so that the reports do not show whether it was served; %s would."
            % (one.view.number, machines(gathered.settings, one.away, "or")))


def same_members(stories):
    return len({one.view.members for one in stories}) < len(stories)


def story_lines(settings, stories):
    """What two stories of one view most likely mean, and what the reports show of each."""
    number = stories[0].view.number
    if same_members(stories):
        return ["What it most likely means: a report that is damaged or of another group. A restart that was given up leaves a view of the same"
                " number, but with other members; here the members are the same and only shards differ."]
    lines = ["What it most likely means: a restart was given up while it prepared and left its view %d open on some disks, and another restart made a"
             " view %d of its own. If the duties were kept, one of them at most was served:" % (number, number)]
    for one in stories:
        told = {SURE: "all its members have it, so it counts", NEVER: "never served, for %s back without it" % its_members(settings, one.lack),
                UNDECIDED: "undecided until %s back" % its_members(settings, one.away)}[one.finding]
        lines.append("  view %d of members %s, reported by %s: %s" % (number, settings.those(one.view.members), machines(settings, one.have), told))
    return lines


def its_members(settings, nodes):
    several = len(nodes) > 1
    return "its member%s %s %s" % ("s" * several, listed([settings.name(node) for node in sorted(nodes)] or ["none"]), "are" if several else "is")
