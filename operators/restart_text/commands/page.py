"""restart-text page: drawing, table and explanation as one file of HTML."""
from ..files import write
from ..page import page
from ..statuses import status_of
from ..taking import names_of
from .shared import explained, input_argument, output_argument, program_arguments


def arguments(parser):
    input_argument(parser)
    program_arguments(parser)
    output_argument(parser)


def work(chosen):
    _, told = explained(chosen)
    write(chosen.output, page(told, names_of(chosen.file)).encode())
    return status_of(told)
