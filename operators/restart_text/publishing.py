"""The page of one subgroup, for the publisher who rents it: its words as values, as sentences and as one file of HTML. All of it is made
of the page's words, the subgroup's shards and the machines' names, and of nothing else of the restart."""
from dataclasses import dataclass
from html import escape

from .model import MOST_NODES, MOST_SHARDS, START
from .page import STYLE as PAGE_STYLE
from .page import table as html_table
from .page import whole
from .sentences import counted, listed, pair, table, update
from .state import PHASES
from .words import nodes_of

WORDS = 72
PHASE, VIEW, SHARDS, KNOWN, FOUND, MOVES, HOLDERS, TARGETS, MASKS = 0, 1, 2, 3, 4, 5, 8, 24, 56
GATHERING = PHASES[0]
DOING = {
    "gathering": "Machines report what they have, and this is what those that are back would give now. A restart begins for all subgroups"
                 " together.",
    "ordered": "A plan stands, and the machines fetch what they lack.",
    "preparing": "All machines have fetched what they lacked, and write the new view to their disks.",
    "committed": "All machines have the new view on disk: the restart is over.",
}
STYLE = PAGE_STYLE + """
ol.phases { display: flex; flex-wrap: wrap; list-style: none; margin: 1em 0; padding: 0; }
ol.phases li { padding: .3em 1.2em; margin-right: .4em; background: #eee; color: #555; }
ol.phases li.now { background: #1e7b34; color: #fff; font-weight: bold; }"""


class BadPage(Exception):
    """Words that are no page, in one line."""


@dataclass(frozen=True)
class Shown:
    """A shard on the page."""

    number: int
    holder: int | None  # whose log is taken
    target: tuple | None  # up to which update
    members: frozenset | None  # where it is placed, if there is a placement
    wanted: object = None  # the shard in the settings, where these are known


@dataclass(frozen=True)
class Machines:
    """What machines are called."""

    names: tuple = ()

    def named(self, node):
        """The machine's name, or None."""
        return self.names[node] if node < len(self.names) else None

    def name(self, node):
        return self.named(node) or str(node)

    def those(self, nodes):
        return " ".join(self.name(node) for node in sorted(nodes))


@dataclass(frozen=True)
class Published:
    subgroup: int
    phase: str
    view: int  # 0: none is kept
    shards: tuple  # of Shown
    moves: int | None  # None: there is no placement
    machines: Machines

    @property
    def without_log(self):
        return [shard.number for shard in self.shards if shard.holder is None]

    @property
    def ready(self):
        """Whether every shard has a log and the subgroup a placement."""
        return self.moves is not None and not self.without_log

    @property
    def spoken_of(self):
        """The machines that the page names."""
        return sorted({node for shard in self.shards for node in ({shard.holder} - {None}) | (shard.members or frozenset())})


def published(words, subgroup, names=(), shards=()):
    """What the words of a page say; `shards` are those of the settings, of which the subgroup's own are used."""
    check(words)
    found = []
    for number in range(MOST_SHARDS):
        if words[SHARDS] >> number & 1:
            known = words[KNOWN] >> number & 1
            found.append(Shown(number, words[HOLDERS + number] if known else None,
                               tuple(words[TARGETS + 2 * number : TARGETS + 2 * number + 2]) if known else None,
                               nodes_of(words[MASKS + number]) if words[FOUND] else None,
                               shards[number] if number < len(shards) else None))
    return Published(subgroup, PHASES[words[PHASE]], words[VIEW], tuple(found), words[MOVES] if words[FOUND] else None,
                     Machines(tuple(names)))


def check(words):
    """A page has 72 words, or zeros after them, and zero in every place that means nothing."""
    if len(words) < WORDS or any(words[WORDS:]):
        raise BadPage("a page has %d words, and zeros may follow" % WORDS)
    if words[PHASE] >= len(PHASES):
        raise BadPage("word %d, the phase, is %d, allowed are 0 to 3" % (PHASE, words[PHASE]))
    if words[SHARDS] >> MOST_SHARDS or words[KNOWN] & ~words[SHARDS]:
        raise BadPage("words %d and %d, the shards and those that have a holder, do not go together" % (SHARDS, KNOWN))
    if words[FOUND] > 1:
        raise BadPage("word %d, whether there is a placement, is %d, allowed are 0 and 1" % (FOUND, words[FOUND]))
    for place, word in enumerate(words[:WORDS]):
        if place > FOUND and word and not means(words, place):
            raise BadPage("word %d is %d and should be 0, for nothing stands in this place" % (place, word))
    for number in range(MOST_SHARDS):
        if words[HOLDERS + number] >= MOST_NODES:
            raise BadPage("word %d, a holder, is %d, allowed are 0 to %d" % (HOLDERS + number, words[HOLDERS + number], MOST_NODES - 1))
        if words[FOUND] and words[SHARDS] >> number & 1 and not words[MASKS + number]:
            raise BadPage("word %d, the machines of shard %d, is 0" % (MASKS + number, number))


def means(words, place):
    """Whether something stands in this place after word 4."""
    if place >= MASKS:
        return words[FOUND] and words[SHARDS] >> place - MASKS & 1
    if place >= TARGETS:
        return words[KNOWN] >> (place - TARGETS) // 2 & 1
    return words[KNOWN] >> place - HOLDERS & 1 if place >= HOLDERS else place == MOVES and words[FOUND]


def lines(page):
    """The page in sentences."""
    told = [headline(page), *phase_lines(page)]
    if page.shards:
        told += ["", *table(rows(page)), "", *notes(page)]
    return told


def headline(page):
    name = "Subgroup %d" % page.subgroup
    if not page.shards:
        return "%s has no shards." % name
    if page.phase != GATHERING:
        return "%s %s, with %s." % (name, "has restarted" if page.phase == "committed" else "is planned", counted(page.moves or 0, "move"))
    if not page.view:
        return "%s: no machine has reported yet." % name
    missing = []
    if page.without_log:
        missing.append("no machine that is back has the log of %s" % shards_named(page.without_log))
    if page.moves is None:
        missing.append("the machines that are back cannot be laid out in its shards")
    if missing:
        return "%s is not ready: %s." % (name, "; ".join(missing))
    return "%s is ready: every log is there, and its shards are placed with %s." % (name, counted(page.moves, "move"))


def shards_named(numbers):
    return "shard%s %s" % ("s" * (len(numbers) > 1), listed(numbers))


def phase_lines(page):
    kept = "The latest view that was reported is %d." if page.phase == GATHERING else "The view before the restart is %d."
    return ["Phase: %s. %s" % (page.phase, DOING[page.phase])] + ([kept % page.view] if page.view else [])


def rows(page):
    """A row for each shard. Needs and caps stand in it where the settings are known."""
    wanted = all(shard.wanted for shard in page.shards)
    capped = wanted and any(shard.wanted.cap > shard.wanted.needs for shard in page.shards)
    head = ["shard"] + ["needs"] * wanted + ["cap"] * capped + ["log from", "up to", "machines"]
    found = [head]
    for shard in page.shards:
        row = [str(shard.number)] + ([str(shard.wanted.needs)] if wanted else []) + ([str(shard.wanted.cap)] if capped else [])
        row += ["nobody", "-"] if shard.holder is None else [page.machines.name(shard.holder), pair(shard.target)]
        found.append(row + ["-" if shard.members is None else page.machines.those(shard.members)])
    return found


def notes(page):
    """What the table means."""
    found = []
    targets = [shard.target for shard in page.shards if shard.target]
    example = next((target for target in targets if target != START), None)
    if example:
        found.append("Up to %s: %s is the last that is kept of the log." % (pair(example), update(example)))
    if START in targets:
        found.append("Up to (0, 0): no update that was reported.")
    if page.moves is None and page.view:
        found.append("No placement: a shard needs machines of so many different failure sets, and none carries two shards of a subgroup.")
    if page.moves is not None and page.view:
        many = "%d of these machines did not carry their shards" if page.moves > 1 else "%d of these machines did not carry its shard"
        found.append("Moves: %s in view %d." % (many % page.moves if page.moves else "none, each of these machines carried its shard",
                                                page.view))
    return found


def html(page):
    """The page as one file of HTML, which refers to nothing outside."""
    title = headline(page)
    parts = ['<header class="%s"><h1>%s</h1>' % ("plan" if page.ready or not page.shards else "wait", escape(title))]
    parts += ["<p>%s</p>" % escape(line) for line in phase_lines(page)] + ["</header>"]
    parts.append('<ol class="phases">%s</ol>' % "".join(
        "<li%s>%s</li>" % (' class="now"' * (name == page.phase), name) for name in PHASES))
    if page.shards:
        parts += ["<h2>Shards</h2>", html_table(rows(page))] + ["<p>%s</p>" % escape(line) for line in notes(page)]
    return whole(title, parts, STYLE)
