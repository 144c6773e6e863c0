"""What the program `sheet` prints: for every set of machines that may be up, 0 for a plan or the wait's number, and how many there are of
each. The lines are counted here once more, and a sheet that has others is refused."""
import re

from .answers import BadAnswer, one_line
from .gathering import lacking
from .sentences import machines
from .words import mask_of, nodes_of

MOST_NODES = 10
NUMBERS = (0, 2, 3, 4, 5)  # a plan, and the waits
LINE = re.compile(r"(\d+) ([0-5])")
COUNTS = re.compile(r"\d+( \d+){4}")


def parse(text, nodes):
    """The number of each set, by its mask; or the Number of a refusal."""
    lines = text.splitlines()
    if len(lines) == 1 and lines[0].startswith("number "):
        return one_line(lines[0])
    if len(lines) != 2**nodes + 1:
        raise BadAnswer("expected 'number NUMBER' or a sheet of %d lines, found %d lines" % (2**nodes + 1, len(lines)))
    numbers = []
    for mask, line in enumerate(lines[:-1]):
        found = LINE.fullmatch(line)
        if not found or int(found[1]) != mask or int(found[2]) not in NUMBERS:
            raise BadAnswer("expected '%d' and 0 or a wait from 2 to 5, found '%s'" % (mask, line))
        numbers.append(int(found[2]))
    counts = [numbers.count(number) for number in NUMBERS]
    if not COUNTS.fullmatch(lines[-1]) or list(map(int, lines[-1].split())) != counts:
        raise BadAnswer("expected the counts '%s' at the end, found '%s'" % (" ".join(map(str, counts)), lines[-1]))
    return numbers


def waits_of_sets(gathered):
    """This tool's own count: for each set of machines, by its mask, the first reason to wait with its shard or subgroup, or (0, None) for a
    plan. All machines have reported; the kept view is the same, whoever is up."""
    settings, kept = gathered.settings, gathered.kept
    members, majority = mask_of(kept.members), len(kept.members) // 2 + 1
    logs = [mask_of(able(gathered, shard)) for shard in range(len(settings.shards))]
    sets = [mask_of(settings.nodes_of(number)) for number in range(settings.failure_sets)]
    groups = [sorted(settings.shards_of(group), key=lambda shard: -settings.shards[shard].needs) for group in range(4)]
    placed = {}

    def unplaced(mask):
        """The lowest subgroup that these machines cannot carry, which depends on how many of each failure set are up."""
        sizes = tuple((mask & one).bit_count() for one in sets)
        if sizes not in placed:
            held = dict(enumerate(sizes))
            placed[sizes] = next((group for group in range(4) if lacking(settings, groups[group], held)), None)
        return placed[sizes]

    def first(mask):
        if (mask & members).bit_count() < majority:
            return 2, None
        if mask.bit_count() < settings.least:
            return 3, None
        shard = next((shard for shard, log in enumerate(logs) if not mask & log), None)
        if shard is not None:
            return 4, shard
        group = unplaced(mask)
        return (0, None) if group is None else (5, group)

    return [first(mask) for mask in range(2 ** len(settings.set_of))]


def able(gathered, shard):
    """The machines from which the shard's log could be taken if no other were up: by a kept termination those that have its update."""
    found = gathered.candidates(shard)
    return [one.node for one in found if not gathered.termination or one.has(shard, gathered.termination[shard])]


def compare(settings, numbers, waits):
    """Refuses a sheet that is not this input's."""
    for mask, (number, (own, _)) in enumerate(zip(numbers, waits)):
        if number != own:
            raise BadAnswer("the sheet does not fit the input: with %s up it has %d, by this tool's own counting %d"
                            % (machines(settings, nodes_of(mask)), number, own))
