"""restart-text split: an input as files, one for the settings and one for each report."""
from ..splitting import split
from ..taking import read_input
from .shared import file_argument


def arguments(parser):
    file_argument(parser)
    parser.add_argument("folder", metavar="FOLDER", help="where settings.bin and the folder reports are written")


def work(chosen):
    split(read_input(chosen.file), chosen.folder)
