"""Random inputs for the tests: a group with its settings and reports, and damage to them."""
from restart_text import encode, words
from restart_text.model import Report, Settings, Shard, View


def world(random):
    """The blocks of an input: settings, and reports of some machines, most of them of one view."""
    nodes = random.randint(1, 12)
    sets = random.randint(1, 5)
    set_of = tuple(random.randrange(sets) for _ in range(nodes))
    shards = tuple(shard_of(random, sets) for _ in range(random.randint(1, 4)))
    settings = Settings(sets, random.choice([1, 1, nodes // 2 + 1, nodes]), set_of, shards)
    view, old = view_of(random, settings, 7), view_of(random, settings, 5)
    if view is None or old is None:
        return world(random)
    termination = tuple(random.choice([(0, 0), (5, 2), (7, 2), (7, 3)]) for _ in shards)
    blocks = [encode.settings_words(settings)]
    often = random.choice([0, 0, 0.5])
    for node in random.sample(range(nodes), random.choice([0] + [nodes // 2] * 3 + [nodes] * 8)):
        seen = old if random.random() < 0.1 else view
        if node in seen.members:
            shown = termination if random.random() < often else None
            shown = shown if seen is view or shown is None else ((5, 1),) * len(shards)
            blocks.append(encode.report_words(Report(node, seen, shown, runs(random, settings, seen.number))))
    if random.random() < 0.2:
        node = random.choice(sorted(old.members))
        blocks.append(encode.report_words(Report(node, old, None, runs(random, settings, 5))))
    return blocks


def shard_of(random, sets):
    """A shard with a cap or without."""
    needs = min(sets, random.choice([1, 1, 2, 3]))
    return Shard(random.choice([0, 0, 1, 3]), needs, random.choice([0, 0, 0, needs, needs + 1, needs + 2, 16]))


def view_of(random, settings, number):
    """A view in which no machine carries two shards of a subgroup, or None where there are too few machines."""
    members = sorted(node for node in settings.nodes if random.random() < 0.9)
    shards = [None] * len(settings.shards)
    for subgroup in range(4):
        pool = random.sample(members, len(members))
        for shard in settings.shards_of(subgroup):
            size = random.randint(1, 4)
            shards[shard] = frozenset(pool[:size])
            pool = pool[size:]
    return View(number, frozenset(members), tuple(shards)) if all(shards) else None


def runs(random, settings, greatest):
    def log():
        views = sorted(random.sample(range(1, greatest + 1), random.choice([0, 1, 1, 2])))
        return tuple((view, random.randint(1, 4)) for view in views)

    return tuple(log() for _ in settings.shards)


def damaged(random, blocks):
    """The blocks with one fault, which may be none."""
    blocks = [list(block) for block in blocks]
    block = random.choice(blocks[1:] or blocks) if random.random() < 0.9 else blocks[0]
    place = random.randrange(len(block))
    fault = random.randrange(10)
    if fault == 0:
        del block[place:]
    elif fault == 1:
        block[place] = random.choice([0, 1, 2, 3, 4, 7, 8, 255, 256, 259, 512, 768, 2304, 2**31, 2**32 - 1])
    elif fault == 2:
        block[place] ^= 1 << random.randrange(10)
    elif fault == 3:
        block += [random.randrange(900) for _ in range(random.choice([1, 4, 8, 512]))]
    elif fault == 4:
        move_record(random, block)
    elif fault == 5:
        other_view(random, block)
    elif fault == 6:
        other_termination(random, blocks)
    elif fault == 7:
        block[place - place % 4 + 3 if place - place % 4 + 3 < len(block) else place] = random.randrange(len(block) // 4 + 2)
    elif fault == 8:
        block[random.choice([0, 0, 1, 2]) % len(block)] = random.randrange(16)
    else:
        blocks[0][-1] += 65536 * random.choice([1, 2, 16, 65535 - blocks[0][-1] // 65536])
    return blocks


def move_record(random, block):
    """Two records change places, but for their next indexes."""
    if len(block) >= 12 and len(block) % 4 == 0:
        one, other = (4 * random.randrange(1, len(block) // 4) for _ in range(2))
        block[one : one + 3], block[other : other + 3] = block[other : other + 3], block[one : one + 3]


def other_view(random, block):
    """A shard's members may get one machine more."""
    for place in range(4, len(block) - 3, 4):
        if block[place] // 256 == 1 and random.random() < 0.3:
            block[place + 1] |= block[2] & words.mask_of([random.randrange(12)])


def other_termination(random, blocks):
    """A termination gets another update where it has one."""
    places = [(block, place) for block in blocks[1:] for place in range(4, len(block), 4)
              if block[place] // 256 == 2 and block[place + 2]]
    if places:
        block, place = random.choice(places)
        block[place + 2] += 1
