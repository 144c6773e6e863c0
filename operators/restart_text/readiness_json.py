"""Readiness as a value for JSON; operators/schemas/readiness.schema.json says what it has."""
from .jsoned import answer_value, settings_value
from .readiness import Unready
from .readiness_lines import comparison_lines, lines, unready_lines
from .sheets import NUMBERS
from .stamping import head

SCHEMA = 1


def readiness_value(found):
    """One layout, or two."""
    both = len(found) == 2 and not any(isinstance(one, Unready) for one in found)
    return {**head(SCHEMA), "layouts": [layout_value(one) for one in found],
            "comparison": comparison_lines(*found) if both else None}


def layout_value(one):
    value = {"file": one.name, "settings": settings_value(one.gathered.settings)}
    if isinstance(one, Unready):
        return {**value, "answer": answer_value(one.answer), "missing": one.missing, "text": unready_lines(one)}
    return {**value, "answer": {"kind": "sheet"}, "supposed": list(one.supposed), "sheet": sheet_value(one), "text": lines(one)}


def sheet_value(ready):
    return {"numbers": [number for number, _ in ready.waits], "counts": counts_value(ready.share()),
            "by_up": [{"up": count, **counts_value(share)} for count, share in enumerate(ready.by_up())],
            "by_failure_set_lost": [lost_value(ready, number, nodes) for number, nodes in ready.failure_sets()],
            "by_machine": [{"node": node, "down": counts_value(down), "up": counts_value(held)} for node, down, held in ready.by_machine()],
            "least_sets": [sorted(nodes) for nodes in ready.least_sets()], "needed": [node for node, _ in ready.needed()],
            "in_the_way": [{"reason": number, "value": value, "sets": count} for number, value, count in ready.in_the_way()]}


def counts_value(share):
    names = ["restart" if number == 0 else "wait_%d" % number for number in NUMBERS]
    return {"sets": share.total, **dict(zip(names, share.counts))}


def lost_value(ready, number, nodes):
    share, wait = ready.without(nodes)
    return {"set": number, "machines": sorted(nodes), **counts_value(share),
            "all_others_up": {"kind": "wait", "reason": wait[0], "value": wait[1]} if wait[0] else {"kind": "plan"}}
