"""What the files of a folder come to, looked at again and again."""
import os

from .answers import BadAnswer
from .files import Trouble, Unfit, read_names
from .folders import SETTINGS
from .joining import join
from .missing import asked_without
from .statuses import OTHER, REFUSAL, status_of


def look(files, program, picks, names, library=None):
    """The lines of the explanation for these files, and the exit status. `picks` gives of an input the machines that are gone, those that are
    left out, and remarks; `library` is the Source that is asked who may be taken out."""
    try:
        paths = [path for path, *_ in files]
        if not paths or os.path.basename(paths[0]) not in SETTINGS:
            raise Trouble("there is no settings.txt or settings.bin")
        given = join(paths, anyway=True)
        given.names = read_names(names) if names else given.names
        gone, without, remarks = picks(given)
        told = asked_without(given, program, without, gone, library)
        return remarks + told.lines, status_of(told)
    except Unfit as trouble:
        return [str(trouble)], REFUSAL
    except (Trouble, BadAnswer) as trouble:
        return [str(trouble)], OTHER
