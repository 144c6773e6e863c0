"""What an operator could do, found by asking the program about other inputs: which machines to switch on, what one more would save,
what the others would give without a report that is refused or stands alone with its view."""
from dataclasses import dataclass, field

from . import decode
from .answers import Number, Wait
from .asking import Clock, OutOfTime
from .evidence import stories_of
from .gathering import gather
from .model import Refused
from .saving import Cheaper, cheaper
from .searching import Found, least_sets
from .supposing import Supposed


@dataclass
class Without:
    """What the program answers without these blocks of the input."""

    blocks: list
    answer: object
    found: Found | None = None  # where that is a wait, which machines would help then
    view: int = 0  # and the kept view, which they would have to report


@dataclass
class Advice:
    supposed: Supposed | None = None
    found: Found | None = None  # for a wait
    cheaper: Cheaper | None = None  # for a plan: which machines more would save moves
    lone: Without | None = None  # for a wait: without the only report of the kept view
    without: list = field(default_factory=list)  # for a refusal: without the reports of one story and of the other
    stories: list = field(default_factory=list)  # for number 12: the views of one number, a Story each


def advise(given, gathered, answer, fault, program, gone=frozenset()):
    """Without a program only what this tool can count itself, within the usual time."""
    advice, clock = Advice(), program or Clock()
    if isinstance(answer, Number):
        if answer.number == 12 and gathered.refused and gathered.fault == fault:
            advice.stories = stories_of(gathered.kept.number, reports(given, gathered.settings).values())
        if program and fault:
            advice.without = others(given, gathered, fault, program, gone)
        return advice
    if gathered.kept is None:
        return advice
    advice.supposed = Supposed(given.blocks, gathered, gone)
    if isinstance(answer, Wait):
        advice.found = least_sets(advice.supposed, program, clock)
        advice.lone = lone(given, gathered, program, gone) if program else None
    elif program:
        advice.cheaper = cheaper(advice.supposed, answer, program)
    return advice


def lone(given, gathered, program, gone):
    """Without the only report of the kept view, where others reported older ones."""
    blocks = [number for number, block in enumerate(given.blocks) if number and block[1] == gathered.kept.number]
    nodes = frozenset(given.blocks[number][0] for number in blocks)
    if len(nodes) > 1 or len(gathered.held) == 1:
        return None
    return without(given, blocks, program, gone | nodes)


def left_out(given, numbers):
    return [block for number, block in enumerate(given.blocks) if number not in numbers]


def without(given, blocks, program, gone):
    """The answer without these blocks, and where that is a wait, which machines would help then."""
    rest = left_out(given, blocks)
    answer = program.ask(rest)
    if not isinstance(answer, Wait) or answer.reason == 1:
        return Without(blocks, answer)
    gathered = gather(rest, given.names)
    return Without(blocks, answer, least_sets(Supposed(rest, gathered, gone), program, program), gathered.kept.number)


def others(given, gathered, fault, program, gone):
    """Where two reports tell different stories of a view or a machine, the answer with either story; else without all that are
    refused."""
    if gathered.refused and gathered.refused.number in (12, 13, 18) and gathered.fault == fault:
        told = reports(given, gathered.settings)
        return [without(given, blocks, program, gone) for blocks in stories(gathered, told, fault)]
    refused = [fault]
    try:
        while isinstance(program.ask_in_time(left_out(given, refused)), Number):
            left, rest = [number for number in range(len(given.blocks)) if number not in refused], left_out(given, refused)
            refused.append(left[program.fault(rest, gather(rest).fault)])
    except OutOfTime:
        return []
    return [without(given, sorted(refused), program, gone)]


def reports(given, settings):
    """The reports that can be read, by their blocks' numbers."""
    found = {}
    for number, block in enumerate(given.blocks[1:], 1):
        try:
            found[number] = decode.report_from(block, settings)
        except Refused:
            pass
    return found


def stories(gathered, told, fault):
    """The blocks that contradict the kept story, and those that contradict the story of the block at fault."""
    kept, other = gathered.kept, told[fault]
    if gathered.refused.number == 18:
        return [fault], [number for number, report in told.items()
                         if number < fault and report.node == other.node and report.view.number > other.view.number]

    def against(view, termination):
        return [number for number, report in told.items() if report.view.number == view.number
                and (report.view != view or termination and report.termination not in (None, termination))]

    if gathered.refused.number == 12:
        return against(kept, None), against(other.view, None)
    return against(kept, gathered.termination), against(kept, other.termination)
