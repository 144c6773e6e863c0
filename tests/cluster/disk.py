"""A machine's disk as the tests see it: its views and logs, and what a power cut leaves of it (power.c watches what is not yet on disk)."""
import os
import struct

SHARDS, PLAYERS, CLIENTS = 16, 64, 32
HEAD_WORDS, UPDATE_WORDS = 8 + PLAYERS + CLIENTS, 7
VIEWS_MAGIC, ORDER_MAGIC, LOG_MAGIC = 0x77656976, 0x6564726F, 0x20676F6C
MARK = 1 << 31
ROW = struct.Struct("<40sqii")


def words_of(data):
    return struct.unpack("<%dI" % (len(data) // 4), data[: len(data) // 4 * 4])


def fnv(data):
    found = 2166136261
    for byte in data:
        found = (found ^ byte) * 16777619 & 0xFFFFFFFF
    return found


def read(folder, name):
    try:
        with open(os.path.join(folder, name), "rb") as file:
            return file.read()
    except FileNotFoundError:
        return None


class View:
    def __init__(self, words):
        self.number, self.members, self.logs, self.slots, self.terminated = (next(words) for _ in range(5))
        self.masks, self.base, self.termination = [], [], []
        for _ in range(SHARDS):
            self.masks.append(next(words))
            self.base.append((next(words), next(words)))
            self.termination.append((next(words), next(words)))
        self.list = [(next(words), next(words)) for _ in range(next(words))]

    def log(self, shard):
        return "log-%02d-%s" % (shard, "ab"[self.slots >> shard & 1])


def views(folder):
    """The sure view and the open one; None for what is not there."""
    data = read(folder, "views")
    if data is None or len(data) < 16 or words_of(data)[-1] != fnv(data[:-4]):
        return None, None
    words = iter(words_of(data)[:-1])
    if next(words) != VIEWS_MAGIC:
        return None, None
    next(words), next(words)  # the open view's tag
    sure = View(words)
    return sure, View(words) if next(words) else None


class Log:
    """A log: the end, count and sum of what is packed, the greatest number of each client there, and the good updates that follow:
    position -> (client, number, player, score)."""

    def __init__(self, folder, name, shard):
        data = read(folder, name) or b""
        head = words_of(data[: 4 * HEAD_WORDS])
        self.good = len(head) == HEAD_WORDS and head[:2] == (LOG_MAGIC, shard) and head[-1] == fnv(data[: 4 * HEAD_WORDS - 4])
        self.end, self.updates = (0, 0), {}
        if not self.good:
            return
        self.end, self.count, self.sum = (head[2], head[3]), head[4], head[5] | head[6] << 32
        self.scores, self.numbers = head[7 : 7 + PLAYERS], head[7 + PLAYERS : -1]
        last = self.end
        for at in range(4 * HEAD_WORDS, len(data) - 4 * UPDATE_WORDS + 1, 4 * UPDATE_WORDS):
            piece = data[at : at + 4 * UPDATE_WORDS]
            view, k, client, number, player, score, told = words_of(piece)
            follows = k == last[1] + 1 if view == last[0] else view > last[0] and k == 1
            if told != fnv(piece[:-4]) ^ shard * 2654435761 & 0xFFFFFFFF or not follows:
                break
            last = (view, k)
            self.updates[last] = (client, number, player, score)

    def packed(self, update):
        """Whether what is packed has this update. Known are each client's greatest number and the last score of each player; those with a mark
        rise, and the ten last updates of a client in a shard are of ten players."""
        client, number, player, score = update
        return self.numbers[client] >= number and (score < MARK or self.scores[player] < MARK or self.scores[player] >= score)


def folded(found, position, update):
    """The sum of a store with one more update."""
    for word in position + update:
        found = (found ^ word) * 1099511628211 & 0xFFFFFFFFFFFFFFFF
    return found


def cut_power(folder, before, random, harsh):
    """What a power cut leaves in the folder: all that was synced and, of the rest, any part; if harsh, none of it. Gives how many names and
    ends were lost."""
    lost = 0
    table = read(before, "table") or b""
    for at in range(8, len(table) - ROW.size + 1, ROW.size):
        name, synced, named, was = ROW.unpack_from(table, at)
        name = name.split(b"\0")[0].decode()
        if not name:
            continue
        path, kept = os.path.join(folder, name), os.path.join(before, name + ".was")
        if not named and (harsh or random.random() < 0.5):  # the folder on disk has what was there before
            lost += 1
            if was:
                os.replace(kept, path)
            elif os.path.exists(path):
                os.remove(path)
        elif os.path.exists(path) and os.path.getsize(path) > synced:
            lost += 1
            tear(path, synced, random, harsh)
        if was and os.path.exists(kept):
            os.remove(kept)
    with open(os.path.join(before, "table"), "wb"):
        pass
    return lost


def tear(path, synced, random, harsh):
    """Of what lies behind the synced bytes of a file some is there, and some of that is wrong."""
    size = os.path.getsize(path)
    left = synced if harsh else random.randint(synced, size)
    os.truncate(path, left)
    if left > synced and random.random() < 0.5:
        with open(path, "r+b") as file:
            file.seek(random.randint(synced, left - 1))
            file.write(bytes([random.randrange(256)]))
