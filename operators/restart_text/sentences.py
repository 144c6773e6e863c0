"""Small pieces of plain sentences."""


def listed(items, word="and"):
    """1, 2 and 3."""
    items = [str(item) for item in items]
    return items[0] if len(items) == 1 else "%s %s %s" % (", ".join(items[:-1]), word, items[-1])


def machines(settings, nodes, word="and"):
    names = [settings.name(node) for node in sorted(nodes)]
    return "no machine" if not names else "machine%s %s" % ("s" * (len(names) > 1 and word == "and"), listed(names, word))


def machine(settings, node):
    return machines(settings, [node])


def counted(count, name):
    return "%d %s%s" % (count, name, "s" * (count != 1))


def pair(position):
    return "(%d, %d)" % position


def update(position):
    return "update %d of view %d" % (position[1], position[0])


def table(rows):
    """Rows of text as columns, two spaces between."""
    widths = [max(len(row[column]) for row in rows) for column in range(len(rows[0]))]
    return ["  ".join(cell.ljust(width) for cell, width in zip(row, widths)).rstrip() for row in rows]
