"""The leader's file, restart(7): what a leader keeps between two starts. Words: mark, format, length of the file, tag (low half, high half),
length of the settings, length of the service's own words; settings, state, desk, own words; a sum of all before it. Lengths are in bytes."""
import struct
import zlib
from dataclasses import dataclass

from . import decode, printing, state, words
from .model import MOST_NODES, MOST_RECORDS, Refused

MARK, FORMAT, HEAD = b"rldr", 2, 28
STATE_BYTES, DESK_BYTES, SUM_BYTES = 4 * state.WORDS, 16 * MOST_RECORDS * MOST_NODES, 4
MOST_BYTES = HEAD + 4 * decode.MOST_SETTINGS + STATE_BYTES + DESK_BYTES + 1048576 + SUM_BYTES  # with the most own words
FOREIGN, TORN, CHANGED, OTHER_FORMAT = 32, 33, 34, 35  # numbers of restart_leader_take


@dataclass(frozen=True)
class Leader:
    """What a leader keeps; of a state and a desk alone there is no tag."""

    tag: int | None
    settings: bytes
    state: bytes
    desk: bytes
    own: bytes = b""  # words of the service's own


def to_bytes(leader):
    parts = leader.settings + leader.state + leader.desk + leader.own
    length = HEAD + len(parts) + SUM_BYTES
    data = MARK + struct.pack("<IIQII", FORMAT, length, leader.tag, len(leader.settings), len(leader.own)) + parts
    return data + struct.pack("<I", zlib.crc32(data))


def from_bytes(data):
    """What these bytes keep, or one of the numbers 32 to 35. Settings and state are taken as they are."""
    least = HEAD + STATE_BYTES + DESK_BYTES + SUM_BYTES
    if data[:4] != MARK[: len(data)]:
        raise Refused(FOREIGN, "it does not begin as a leader's file does, with the letters %s" % MARK.decode())
    if len(data) < HEAD:
        raise Refused(TORN, "it was cut off: it has %d bytes, and its head alone has %d" % (len(data), HEAD))
    form, length, tag, settings, own = struct.unpack_from("<IIQII", data, 4)
    if len(data) != length or len(data) < least:
        raise Refused(TORN, "it was cut off, or is longer than it says: it has %d bytes and says %d" % (len(data), length))
    if struct.unpack_from("<I", data, length - SUM_BYTES)[0] != zlib.crc32(data[: length - SUM_BYTES]):
        raise Refused(CHANGED, "bytes have changed since it was saved: the sum is wrong")
    if form != FORMAT:
        raise Refused(OTHER_FORMAT, "it is of format %d, and this release reads format %d" % (form, FORMAT))
    if length != least + settings + own or own % 4 or settings > 4 * decode.MOST_SETTINGS:
        raise Refused(CHANGED, "the lengths of its parts do not add up to its %d bytes" % length)
    places = [HEAD, HEAD + settings, HEAD + settings + STATE_BYTES, HEAD + settings + STATE_BYTES + DESK_BYTES, length - SUM_BYTES]
    return Leader(tag, *(data[start:end] for start, end in zip(places, places[1:])))


def text_lines(data, desk_text):
    """The file as text: settings, state, and each slot of the desk; `desk_text` is the reader of desks."""
    found = from_bytes(data)
    settings = decode.settings_from(words.from_bytes(found.settings))
    told = state.from_words(words.from_bytes(found.state))
    lines = ["# a leader's file of format %d, tag %d" % (FORMAT, found.tag)] + printing.settings_text(settings)
    lines += [""] + state.remarks(told) + printing.state_text(told)
    lines += ["", "# desk"] + held_desk(told, found.desk, settings, desk_text)
    if found.own:
        own = words.from_bytes(found.own)
        lines += ["", "# %d words of the service's own" % len(own)]
        lines += ["# " + " ".join(map(str, own[place : place + 8])) for place in range(0, len(own), 8)]
    return lines


def held_desk(told, desk, settings, desk_text):
    """The slots of the machines that are held; what others still have there is not part of the restart."""
    slot = 16 * MOST_RECORDS
    kept = b"".join(desk[slot * node : slot * (node + 1)] if node in told.held else bytes(slot) for node in range(MOST_NODES))
    return desk_text(kept, settings)
