"""Words as bytes: 32 bits, little-endian. An input of `restart` is blocks of words, each preceded by its word count."""
import struct


def from_bytes(data):
    """The whole words of these bytes; one to three bytes after the last are left out."""
    count = len(data) // 4
    return list(struct.unpack("<%dI" % count, data[: 4 * count]))


def no_words(data):
    """What to say of bytes that are not whole words."""
    return "1 byte is no whole word" if len(data) == 1 else "%d bytes are no whole words" % len(data)


def to_bytes(words):
    return struct.pack("<%dI" % len(words), *words)


def split(data):
    """The blocks of an input. A block cut short is its whole words, and a cut count ends the input."""
    blocks, at = [], 0
    while len(data) - at >= 4:
        (count,) = struct.unpack_from("<I", data, at)
        blocks.append(from_bytes(data[at + 4 : at + 4 + 4 * count]))
        at += 4 + 4 * count
    return blocks


def joined(blocks):
    """The input that has these blocks."""
    return b"".join(to_bytes([len(block), *block]) for block in blocks)


def mask_of(nodes):
    return sum(1 << node for node in nodes)


def nodes_of(mask):
    return frozenset(node for node in range(32) if mask >> node & 1)
