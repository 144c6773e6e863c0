"""An input taken apart into files: its settings and its reports, without their counts."""
import os

from . import words
from .files import make_folder, write


def split(given, folder):
    """Writes settings.bin and reports/N-machine-M.bin, the N-th report of machine M; gives the paths."""
    made, counts = [os.path.join(folder, "settings.bin")], {}
    for block in given.blocks[1:]:
        node = block[0] if block else 0
        counts[node] = counts.get(node, 0) + 1
        made.append(os.path.join(folder, "reports", "%d-machine-%d.bin" % (counts[node], node)))
    make_folder(os.path.join(folder, "reports"))
    for path, block in zip(made, given.blocks):
        write(path, words.to_bytes(block))
    return made
