"""Flat reports of the former seller: what their words are, what is wrong with one, and where.

A flat report is node, view, members, S, S masks, a word 0 or 1 and if it is 1 S positions (view, update), the number of runs, and as many
triples (shard, view, count). S and the number of runs are its own words. Words count from 0, triples from 1."""
from dataclasses import dataclass, replace

from . import decode, encode, words
from .encode import MEMBERS, RUN, TERMINATION
from .model import MOST_RECORDS, START, Refused
from .sentences import counted, listed

LOOKS_FLAT = "looks like a flat report of the former seller: restart-text convert FOLDER turns a folder of such files into ours"
LEAST_WORDS = 6  # without masks, positions and triples
MOST_TOLD = 8  # places in one line
KINDS = {"mask": MEMBERS, "position": TERMINATION, "triple": RUN}


@dataclass(frozen=True)
class Place:
    """A mask, position or triple of a flat report."""

    part: str
    number: int  # of a mask and a position its shard; of a triple which it is
    of: int  # how many there are of its part
    first: int  # its first word in the file
    words: tuple

    @property
    def shard(self):
        return self.words[0] if self.part == "triple" else self.number

    def __str__(self):
        name = "triple %d of %d" % (self.number, self.of) if self.part == "triple" else "the %s of shard %d" % (self.part, self.number)
        last = self.first + len(self.words) - 1
        where = "word %d" % self.first if last == self.first else "words %d to %d" % (self.first, last)
        return "%s (%s: %s)" % (name, where, " ".join(map(str, self.words)))


class FlatRefused(Refused):
    """A refusal, with the places of the flat report that are at fault."""

    def __init__(self, number, why, index=None, places=()):
        super().__init__(number, why, index)
        self.places = tuple(places)


@dataclass(frozen=True)
class Flat:
    head: tuple  # node, view, mask of the members
    masks: tuple  # of Place, as all that follow
    ended: int  # 1 where there are positions
    positions: tuple
    triples: tuple

    @property
    def places(self):
        """Place i is record i + 1 of the converted report."""
        return self.masks + self.positions + self.triples

    @property
    def words(self):
        parts = [[len(self.masks)], self.masks, [self.ended], self.positions, [len(self.triples)], self.triples]
        return [*self.head] + [word for part in parts for item in part for word in getattr(item, "words", (item,))]


def counts_of(found):
    """The numbers of masks, positions and triples, the termination word, and how many words they ask for; or row 19."""
    short = "it ends before its counts do: %s, and it has %s"
    if len(found) < LEAST_WORDS:
        raise FlatRefused(19, short % ("a flat report has at least %d words" % LEAST_WORDS, counted(len(found), "word")))
    shards = found[3]
    if LEAST_WORDS + shards > len(found):
        raise FlatRefused(19, short % ("%s ask for at least %d words" % (counted(shards, "mask"), LEAST_WORDS + shards), len(found)))
    flag = found[4 + shards]
    if flag > 1:
        raise FlatRefused(19, "its termination word (word %d) is %d, and 0 or 1 was expected there" % (4 + shards, flag))
    asked = LEAST_WORDS + shards + 2 * shards * flag
    if asked > len(found):
        raise FlatRefused(19, short % ("%s and as many positions ask for at least %d words" % (counted(shards, "mask"), asked), len(found)))
    runs = found[asked - 1]
    return shards, shards * flag, runs, flag, asked + 3 * runs


def flat_from(found):
    """The flat report that these words are, or row 19."""
    shards, places, runs, flag, asked = counts_of(found)
    if asked != len(found):
        spare = "; what stands after them is zeros" if asked < len(found) and not any(found[asked:]) else ""
        raise FlatRefused(19, "%s, %s and %s ask for %d words, and it has %d%s"
                          % (counted(shards, "mask"), counted(places, "position"), counted(runs, "triple"), asked, len(found), spare))

    def parts(name, start, count, size):
        return tuple(Place(name, one + (name == "triple"), count, at, tuple(found[at : at + size]))
                     for one, at in enumerate(range(start, start + count * size, size)))

    return Flat(tuple(found[:3]), parts("mask", 4, shards, 1), flag, parts("position", 5 + shards, places, 2),
                parts("triple", asked - 3 * runs, runs, 3))


def looks_flat(found):
    """Whether the counts of these words explain their length, as those of a flat report do."""
    try:
        return bool(flat_from(found).masks)
    except FlatRefused:
        return False


def flat_in(data):
    """The flat report that these bytes are, or row 19."""
    if len(data) % 4:
        raise FlatRefused(19, words.no_words(data))
    return flat_from(words.from_bytes(data))


def without_empty(flat):
    """The flat report without its triples of count 0, and these."""
    empty = empty_triples(flat)
    return replace(flat, triples=tuple(triple for triple in flat.triples if triple not in empty)), empty


def empty_triples(flat):
    return tuple(triple for triple in flat.triples if not triple.words[2])


def record_of(index, place):
    """The record that a place becomes; its shard is that of the file, however large."""
    first, second = (place.words[1:] if place.part == "triple" else (*place.words, 0)[:2])
    return decode.Record(index, KINDS[place.part], place.shard, first, second)


def records_of(flat):
    return [record_of(index, place) for index, place in enumerate(flat.places, 1)]


def message_words(flat):
    """The converted report, of a flat one that is not refused."""
    records = [(256 * record.kind + record.shard, record.first, record.second) for record in records_of(flat)]
    return encode.records_words([flat.head] + records)


def flat_words(report):
    """The flat report with these contents."""
    mask, *masks = [words.mask_of(nodes) for nodes in (report.view.members, *report.view.shards)]
    runs = [(shard, *run) for shard, log in enumerate(report.runs) for run in log]
    positions = [word for at in report.termination or () for word in at]
    ended = int(report.termination is not None)
    return [report.node, report.view.number, mask, len(masks), *masks, ended, *positions, len(runs)] + [word for run in runs for word in run]


def refuse(flat, settings):
    """The first of the numbers 20, 21, 6, 7, 16, 17, 10 and 11 that the flat report meets, raised; of 16 and 17 with the index of the
    record in the converted report."""
    empty = empty_triples(flat)
    if empty:
        raise FlatRefused(20, "%s %s count 0" % (told(empty), "have" if len(empty) > 1 else "has"), None, empty)
    if 1 + len(flat.places) > MOST_RECORDS:
        raise FlatRefused(21, "its head, %s, %s and %s make %d records, and a report has at most %d" % (
            counted(len(flat.masks), "mask"), counted(len(flat.positions), "position"), counted(len(flat.triples), "triple"),
            1 + len(flat.places), MOST_RECORDS))
    head(flat, settings)
    shards(flat, settings)
    sequence(flat, settings)
    masks(flat, settings)
    for place in flat.positions + flat.triples:
        position(place, flat.head[1])


def told(places):
    """The first few of these places, and how many more there are."""
    return listed([*places[:MOST_TOLD]] + ["%d more" % (len(places) - MOST_TOLD)] * (len(places) > MOST_TOLD))


def head(flat, settings):
    """Rows 6 and 7."""
    try:
        decode.head(flat.head, settings, False)
    except Refused as refused:
        raise FlatRefused(refused.number, refused.why) from None


def shards(flat, settings):
    """Row 16."""
    count = len(settings.shards)
    for index, place in enumerate(flat.places, 1):
        if place.shard >= count:
            raise FlatRefused(16, "%s is of shard %d, and there %s" % (place, place.shard, "is 1" if count == 1 else "are %d" % count),
                              index, [place])


def sequence(flat, settings):
    """Row 17: triples that do not rise by shard, then view; then masks that are missing."""
    first = len(flat.masks) + len(flat.positions) + 1
    for index, (before, after) in enumerate(zip(flat.triples, flat.triples[1:]), first + 1):
        if before.words[:2] == after.words[:2]:
            raise FlatRefused(17, "%s has shard and view of %s once more" % (after, before), index, [before, after])
        if before.words[:2] > after.words[:2]:
            rising = "shards" if before.shard > after.shard else "views of a shard"
            raise FlatRefused(17, "%s comes after %s, but %s must rise" % (after, before, rising), index, [before, after])
    missing = range(len(flat.masks), len(settings.shards))
    if missing:
        there = "is 1 shard" if len(settings.shards) == 1 else "are %d shards" % len(settings.shards)
        raise FlatRefused(17, "it has %s, and there %s: the mask%s of shard%s %s %s missing" % (
            counted(len(flat.masks), "mask"), there, *["s" * (len(missing) > 1)] * 2, listed(missing), "are" if len(missing) > 1 else "is"),
            len(flat.places))


def masks(flat, settings):
    """Row 10."""
    records = records_of(flat)
    for mask in flat.masks:
        try:
            decode.shards_members(records[: mask.number + 1], flat.head, settings)
        except Refused as refused:
            raise FlatRefused(10, "%s: %s" % (mask, refused.why), None, [mask]) from None


def position(place, view):
    """Row 11."""
    at = place.words[-2:]
    if place.part == "triple" and not at[0]:
        raise FlatRefused(11, "%s is of view 0, and views count from 1" % place, None, [place])
    if 0 in at and at != START:
        raise FlatRefused(11, "%s is (%d, %d), both should be from 1, or both 0" % (place, *at), None, [place])
    if at[0] > view:
        raise FlatRefused(11, "%s is of view %d, and the report's own is %d" % (place, at[0], view), None, [place])
