"""restart-text join: one input from files with settings and reports."""
import sys

from .. import words
from ..files import Trouble, Unfit, write
from ..joining import join
from .shared import output_argument


def arguments(parser):
    parser.add_argument("file", metavar="SETTINGS", help="the file with the settings, text or words")
    parser.add_argument("reports", metavar="REPORT", nargs="*", help="files with reports, in the order in which they were made")
    parser.add_argument("--anyway", action="store_true", help="take reports that the planner would refuse")
    output_argument(parser)


def work(chosen):
    if chosen.output is None and sys.stdout.isatty():
        raise Trouble("words are not for a terminal; give -o FILE")
    try:
        joined = join([chosen.file] + chosen.reports, chosen.anyway)
    except (Trouble, Unfit) as bad:
        if chosen.output is None:  # for whoever reads from the pipe
            write(None, ("# restart-text join: %s\n" % bad).encode())
        raise
    write(chosen.output, words.joined(joined.blocks))
