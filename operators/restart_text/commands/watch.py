"""restart-text watch: the answer anew whenever a report appears in a folder, or how far a restart is whenever its leader's file changes."""
import os
import sys
import time

from ..asking import Program
from ..files import Trouble, name_of
from ..folders import files_in, news
from ..following import follow
from ..repairing import Source
from ..statuses import OTHER, PLAN
from ..terminal import Screen
from ..watching import look
from .shared import picks, program_arguments, seconds


def arguments(parser):
    parser.add_argument("file", metavar="FOLDER", help="a folder with settings.txt or settings.bin, and with reports in its folder reports or beside them;"
                        " or a leader's file")
    program_arguments(parser, with_answer=False)
    parser.add_argument("--seconds", metavar="SECONDS", type=seconds, help="end after so many seconds; without it, when interrupted")
    parser.add_argument("--until", choices=["plan", "committed"],
                        help="end as soon as there is a plan; of a leader's file also: as soon as the new view is committed")
    parser.add_argument("--every", metavar="SECONDS", type=seconds, default=0.5, help="how often to look, 0.5 without it")


def work(chosen):
    end = time.monotonic() + chosen.seconds if chosen.seconds is not None else float("inf")
    if chosen.until == "committed" and os.path.isdir(chosen.file):
        raise Trouble("--until committed is for a leader's file: reports do not tell when a view is committed")
    program, seen, status = None, None, OTHER
    with Screen(sys.stdout) as screen:
        try:
            while True:
                if os.path.isfile(chosen.file):
                    return follow(chosen, screen, end)
                files = files_in(chosen.file)
                if files != seen:
                    program = program or Program(chosen.program)
                    program.start(chosen.search)
                    lines, status = look(files, program, lambda given: picks(chosen, given, strict=False), chosen.names, Source(chosen.library))
                    if not os.path.exists(chosen.file):
                        lines = ["%s is not there yet, neither a folder nor a leader's file" % chosen.file]
                    screen.show(name_of(chosen.file), news(files if seen is None else seen, files), lines, "restart-text explain %s" % chosen.file)
                    seen = files
                    if chosen.until and status == PLAN:
                        return status
                left = end - time.monotonic()
                if left <= 0:
                    return status
                time.sleep(min(max(chosen.every, 0.05), left))
        except KeyboardInterrupt:
            return status
