"""An answer of `restart` explained from its input."""
from dataclasses import dataclass, field

from .advising import Advice, advise
from .answers import Number, Plan, Wait, printed
from .filling import filling_lines
from .gathering import Gathered, gather, waits
from .ordering import First, first_placement
from .planning import faults, plan_lines
from .refusing import ADVICE, block_name, refusal_lines, to_do
from .repairing import Repair, repair, repair_differences, repair_lines
from .running import order_differences
from .sentences import counted, machines
from .telling import plan_advice, refusal_advice, wait_advice
from .waiting import wait_block


@dataclass
class Explanation:
    answer: object
    gathered: Gathered
    fault: int | None = None  # the block that is refused
    differing: list = field(default_factory=list)  # where this tool's own counting comes to something else than the answer
    advice: Advice = field(default_factory=Advice)
    lines: list = field(default_factory=list)
    asked: int = 0  # how often the program was started
    first: First | None = None  # for a plan: the placement that it must have
    repair: Repair | None = None  # for a plan: who may be taken out, where that was asked for
    what_if: object = None  # what changes where machines that are back are left out, a WhatIf
    before: int = 0  # how many lines say so, before the others

    @property
    def agrees(self):
        return not self.differing


def explain(given, answer, fault=None, program=None, gone=frozenset(), library=None):
    """`fault` is the block that the program refuses, where the program was asked; else it is found by reading. Where there is a
    program, it is asked about other inputs as well, for advice. `library` is the Source that is asked who may be taken out."""
    gathered = gather(given.blocks, given.names)
    first = first_placement(gathered) if isinstance(answer, Plan) and not gathered.refused and not waits(gathered) else None
    told = Explanation(answer, gathered, fault, differences(gathered, given, answer, fault, first), first=first)
    if isinstance(answer, Number) and fault is None and gathered.refused:
        told.fault = gathered.fault
    if told.agrees:
        told.advice = advise(given, gathered, answer, told.fault, program, gone)
        told.differing = supposed_differences(gathered.settings, told.advice.found or told.advice.cheaper)
    if told.agrees and library and isinstance(answer, Plan):
        told.repair = repair(given, gathered, library)
        told.differing = repair_differences(gathered.settings, told.repair)
        told.differing += order_differences(library.path, given.blocks, gathered, answer) if not told.repair.trouble else []
    if isinstance(answer, Number):
        told.lines = refusal_lines(answer, told.fault, given, gathered)
        told.lines += refusal_advice(given, gathered, told.advice, block_name)
        told.lines += ["To do: %s" % to_do(answer, told.fault, given, told.advice.stories)] if answer.number in ADVICE else []
    elif told.agrees and isinstance(answer, Wait):
        first = wait_advice(gathered, answer, told.advice, program) + filling_lines(gathered)
        told.lines = parts(first, summary(gathered), waiting(gathered, answer))
    elif told.agrees:
        first = plan_advice(gathered, answer, told.advice) + (repair_lines(gathered, told.repair) if told.repair else []) + filling_lines(gathered)
        told.lines = parts(first, summary(gathered), plan_lines(gathered, answer, told.first))
    told.lines += warning(told.differing)
    told.asked = program.asked if program else 0
    return told


def parts(first, second, third):
    """Lines with an empty one between the parts."""
    return first + [""] + second + [""] + third


def asked(given, program, gone=frozenset(), library=None):
    """What the program answers to this input, explained."""
    answer = program.ask(given.blocks)
    fault = program.fault(given.blocks, gather(given.blocks).fault) if isinstance(answer, Number) else None
    return explain(given, answer, fault, program, gone, library)


def summary(gathered):
    """What is there: the settings, who is back, and what is kept."""
    settings, kept = gathered.settings, gathered.kept
    lines = ["Settings: %s in %s, %s, least group size %d." % (
        counted(len(settings.nodes), "machine"), counted(settings.failure_sets, "failure set"), counted(len(settings.shards), "shard"), settings.least)]
    if settings.names:
        lines.append("Names: %s." % ", ".join("%d %s" % (node, name) for node, name in enumerate(settings.names) if name))
    lines.append("Held: %s. Absent: %s." % (settings.those(gathered.held), settings.those(gathered.absent)))
    if kept:
        ending = "a termination is kept" if gathered.termination else "no termination"
        lines.append("Kept view: %d, members %s, %s." % (kept.number, settings.those(kept.members), ending))
    older = ["machine %s reported view %d" % (settings.name(node), number) for node, number in stale(gathered)]
    return lines + (["Older views: %s." % ", ".join(older)] if older else [])


def stale(gathered):
    """The machines that reported an older view than the kept one, and that view."""
    return [(node, report.view.number) for node, report in sorted(gathered.reports.items())
            if report.view.number < gathered.kept.number]


def waiting(gathered, answer):
    """The wait, then the further conditions that fail as things stand."""
    failing = {}
    for reason, value in waits(gathered):
        failing.setdefault(reason, []).append(value)
    lines = ["Waiting, reason %d." % answer.reason] + wait_block(gathered, answer.reason, failing.pop(answer.reason))
    if failing:
        lines += ["", "Not met either, as things stand:"]
    for reason, values in failing.items():
        lines.append("Reason %d." % reason)
        lines += wait_block(gathered, reason, values)
    return lines


def differences(gathered, given, answer, fault=None, first=None):
    """Where this tool's own counting comes to something else than the answer. `first` is the placement that a plan must have."""
    refused = gathered.refused
    if refused:
        own = Number(refused.number, refused.index)
        same = answer == own and fault in (None, gathered.fault)
        return [] if same else ["%s for %s: %s" % (printed(own), block_name(gathered.fault, given), refused.why)]
    failing = waits(gathered)
    if failing:
        return [] if answer == Wait(*failing[0]) else [printed(Wait(*failing[0]))]
    return faults(gathered, answer, first) if isinstance(answer, Plan) else ["a plan"]


def supposed_differences(settings, found):
    """Where the program's answers about machines that are supposed to be back are not those of this tool's own counting."""
    return ["with %s back: not what the program answers" % machines(settings, nodes) for nodes in found.differs] if found else []


def warning(differing):
    if not differing:
        return []
    lines = ["", "WARNING: this answer does not fit this input. By its own counting this tool comes to:"]
    lines += ["  " + line for line in differing]
    return lines + ["To do: check that the answer was given for this very input. If it was, do not restart; keep both files"
                    " and call the developers."]
