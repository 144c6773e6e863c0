"""restart-text draw: the plan or the wait as a picture."""
from ..drawing import draw
from ..files import write
from ..statuses import status_of
from .shared import drawable, explained, input_argument, output_argument, program_arguments


def arguments(parser):
    input_argument(parser)
    program_arguments(parser)
    output_argument(parser)
    parser.add_argument("--narrow", action="store_true", help="a picture as wide as a phone")


def work(chosen):
    _, told = explained(chosen)
    write(chosen.output, draw(drawable(told), chosen.narrow).encode())
    return status_of(told)
