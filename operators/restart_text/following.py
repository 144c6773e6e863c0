"""A leader's file, looked at again and again: how far the restart is, and what has happened since the last look."""
import time

from . import leading
from .answers import BadAnswer
from .files import Trouble, Unfit, name_of, read, read_names
from .folders import stamped
from .model import Refused
from .progress import changes, lines, progress
from .statuses import OTHER, PLAN, REFUSAL, WAIT


def follow(chosen, screen, end):
    """Shows the file anew whenever it is replaced, until the time is over, `--until` is met, or it is interrupted."""
    seen, before, status = None, None, OTHER
    try:
        while True:
            stamp = stamped(chosen.file)
            if stamp != seen:
                told, found, status = look(chosen)
                screen.show(name_of(chosen.file), changes(before, found) if before and found else {}, told, "restart-text status %s" % chosen.file)
                seen, before = stamp, found or before
                if found and reached(found, chosen.until):
                    return status
            left = end - time.monotonic()
            if left <= 0:
                return status
            time.sleep(min(max(chosen.every, 0.05), left))
    except KeyboardInterrupt:
        return status


def look(chosen):
    """The lines for the file as it is, how far the restart is, and the exit status."""
    try:
        found = progress(leading.from_bytes(read(chosen.file, leading.MOST_BYTES)), chosen.library, read_names(chosen.names) if chosen.names else ())
        return lines(found), found, WAIT if found.waits else PLAN
    except Refused as refused:
        return ["%s: %s" % (name_of(chosen.file), refused)], None, REFUSAL
    except Unfit as unfit:
        return [str(unfit)], None, REFUSAL
    except (Trouble, BadAnswer) as trouble:
        return [str(trouble)], None, OTHER


def reached(found, until):
    """Whether what was waited for is there: a plan, or that the new view is committed."""
    return until == "plan" and found.phase != "gathering" or until == "committed" and found.phase == "committed"
