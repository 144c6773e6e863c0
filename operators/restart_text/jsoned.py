"""An explanation, a conversion, a page, a shift, a course of rounds and a comparison as values for JSON; operators/schemas/NAME.schema.json says what each
has, NAME being the command."""
from .answers import Plan, Wait
from .converting import last_lines
from .differing import input_parts, settings_changes
from .evidence import NEVER, SURE, UNDECIDED, kept_story
from .explaining import stale
from .filling import nearly_full
from .gathering import holding, waits
from .going import DUTIES, claims
from .library import PASSING
from .planning import log_of, moves, not_kept
from .publishing import lines as page_lines
from .repairing import why
from .rounding import lines as course_lines
from .saving import fetched
from .shifting import lines as shift_lines
from .stamping import head
from .waiting import wait_lines
from .words import nodes_of

SCHEMA = CONVERT_SCHEMA = PUBLISHER_SCHEMA = SHIFT_SCHEMA = ROUNDS_SCHEMA = DIFF_SCHEMA = 1
FINDINGS = {SURE: "sure", NEVER: "never", UNDECIDED: "undecided"}


def json_of(given, told):
    gathered, answer = told.gathered, told.answer
    value = {**head(SCHEMA), "answer": answer_value(answer), "agrees": told.agrees, "differences": told.differing,
             "asked": told.asked, "settings": settings_value(gathered.settings)}
    if told.what_if:
        value["without"] = what_if_value(told.what_if)
    if not gathered.refused:
        value["reports"] = reports_value(gathered)
    if told.agrees and isinstance(answer, Plan):
        value["plan"] = plan_value(gathered, answer, told)
    elif told.agrees and isinstance(answer, Wait):
        value["wait"] = wait_value(gathered, told.advice)
    elif told.agrees:
        value["refusal"] = refusal_value(given, told)
    return {**value, "text": told.lines}


def answer_value(answer):
    if isinstance(answer, Plan):
        return {"kind": "plan", "view": answer.view, "moves": answer.moves}
    if isinstance(answer, Wait):
        return {"kind": "wait", "reason": answer.reason, "value": answer.value}
    return {"kind": "refusal", "number": answer.number, "record": answer.index}


def settings_value(settings):
    """None where the settings cannot be read."""
    if settings is None:
        return None
    return {"failure_sets": settings.failure_sets, "least_group_size": settings.least,
            "machines": [{"node": node, "set": failure_set, "name": settings.names[node] if settings.names else None}
                         for node, failure_set in enumerate(settings.set_of)],
            "shards": [{"shard": number, "subgroup": shard.subgroup, "needs": shard.needs, "cap": shard.cap}
                       for number, shard in enumerate(settings.shards)]}


def reports_value(gathered):
    kept = gathered.kept
    view = {"view": kept.number, "members": sorted(kept.members), "shards": [sorted(nodes) for nodes in kept.shards],
            "termination": [position(at) for at in gathered.termination] if gathered.termination else None,
            "evidence": story_value(kept_story(gathered))} if kept else None
    return {"held": sorted(gathered.held), "absent": sorted(gathered.absent), "kept": view,
            "stale": [{"node": node, "view": number} for node, number in (stale(gathered) if kept else ())],
            "nearly_full": [{"node": node, "records": count} for node, count in nearly_full(gathered).items()]}


def story_value(one):
    return {"reported_by": sorted(one.have), "not_logged_by": sorted(one.lack), "not_known_of": sorted(one.away), "finding": FINDINGS[one.finding]}


def position(at):
    return {"view": at[0], "update": at[1]}


def plan_value(gathered, plan, told):
    shards = []
    for number, placed in enumerate(plan.shards):
        logs = [log_of(gathered, node, number, placed) for node in sorted(placed.members)]
        shards.append({"shard": number, "holder": placed.holder, "target": position(placed.target),
                       "members": sorted(placed.members),
                       "beyond_need": len(placed.members) - gathered.settings.shards[number].needs,
                       "logs": [log_value(log) for log in logs]})
    return {"view": plan.view, "after": gathered.kept.number, "members": sorted(gathered.held), "shards": shards,
            "moves": [{"node": node, "from": before, "to": shard} for node, before, shard in moves(gathered, plan)],
            "not_kept": [{"node": node, "shard": shard, "to": other} for node, shard, other in not_kept(gathered, plan)],
            "as_few_moves": told.first.others,
            "stored": {"lost": None if kept_story(gathered).finding == NEVER else False, "claims": list(claims(gathered)), "duties": list(DUTIES)},
            "fetches": [{"node": node, "updates": count} for node, count in sorted(fetched(gathered, plan).items())],
            "with_one_more": [{"node": node, "moves": count} for node, count in sorted(told.advice.cheaper.single.items())]
            if told.advice.cheaper else [],
            "with_more": more_value(told.advice.cheaper) if told.advice.cheaper else None,
            "repair": repair_value(gathered, told.repair) if told.repair else None}


def what_if_value(found):
    return {"machines": sorted(found.nodes), "with": answer_value(found.answer) if found.answer is not None else None,
            "kept_view": found.rest.kept.number if found.rest.kept else None,
            "lost": [{"shard": one.shard, "after": position(one.after), "end": position(one.end), "updates": one.updates} for one in found.behind],
            "no_log": found.no_log, "keeping": keeping_value(found)}


def keeping_value(found):
    """What a leader would say that keeps the view and the termination; None where they do not hang on the machines."""
    if not found.hanging:
        return None
    wait = found.running if isinstance(found.running, Wait) else None
    return {"asked": not found.counted, "wait": {"reason": wait.reason, "value": wait.value} if wait else None}


def more_value(found):
    return {"fewest_moves": found.fewest, "complete": not found.cut_short and found.compared and not found.more,
            "sets": [{"machines": list(offer.nodes), "moves": offer.moves, "fetches": offer.fetches} for step in found.steps for offer in step]}


def repair_value(gathered, found):
    return {"asked": not found.trouble, "may_go": [{"node": node, "moves": count} for node, count in found.may.items()],
            "must_stay": [{"node": node, "reason": wait.reason, "value": wait.value, "text": why(gathered, wait, node)}
                          for node, wait in found.must.items()]}


def log_value(log):
    return {"node": log.node, "end": position(log.end), "cut": position(log.cut), "discards": log.discards, "fetches": log.fetches}


def wait_value(gathered, advice):
    conditions = [{"reason": reason, "value": value, "text": wait_lines(gathered, reason, value)}
                  for reason, value in waits(gathered)]
    logs = [dict(zip(("holder", "target"), (found[0], position(found[1])))) if found else None
            for found in ((holding(gathered, shard) for shard in range(len(gathered.settings.shards))) if gathered.kept else ())]
    return {"conditions": conditions, "logs": logs, "switch_on": found_value(advice.found) if advice.found else None,
            "lone_view": without_value(advice.lone) if advice.lone else None}


def found_value(found):
    return {"sets": [list(nodes) for nodes in found.sets], "moves": [found.moves[nodes] for nodes in found.sets], "more": len(found.others),
            "complete": found.complete, "by_size": found.by_size, "least": found.least, "helpless": found.helpless, "needed": sorted(found.without),
            "cut_short": found.cut_short}


def without_value(without):
    return {"blocks": without.blocks, "answer": answer_value(without.answer),
            "switch_on": found_value(without.found) if without.found else None}


def refusal_value(given, told):
    refused, fault = told.gathered.refused, told.fault
    record = None if refused.record is None else given.blocks[fault][4 * refused.record : 4 * refused.record + 4]
    return {"block": fault, "words": record, "file": given.files[fault] if fault is not None and fault < len(given.files) else None,
            "line": given.lines[fault] if fault is not None and fault < len(given.lines) else None, "why": refused.why,
            "without": [without_value(one) for one in told.advice.without],
            "stories": [{"view": one.view.number, "members": sorted(one.view.members), **story_value(one)} for one in told.advice.stories]}


def conversion_value(folder, outcomes):
    return {**head(CONVERT_SCHEMA), "target": folder.target, "files": [outcome_value(folder, outcome) for outcome in outcomes],
            "text": last_lines(folder, outcomes)}


def outcome_value(folder, outcome):
    taken = [reading for reading in outcome.readings if reading.words]
    return {"file": outcome.name, "happened": outcome.happened, "output": outcome.output,
            "readings": [reading_value(reading) for reading in outcome.readings],
            "dropped": [place_value(place) for reading in taken for place in reading.dropped], "text": outcome.line,
            "to_do": outcome.advice[1] if outcome.advice else None}


def reading_value(reading):
    refused = reading.refused
    return {"as": reading.form, "words": len(reading.words) if reading.words else None, "refusal": {
        "number": refused.number, "record": refused.record, "places": [place_value(place) for place in getattr(refused, "places", ())],
        "why": refused.why} if refused else None}


def place_value(place):
    return {"part": place.part, "number": place.number, "word": place.first, "words": list(place.words)}


def published_value(page):
    return {**head(PUBLISHER_SCHEMA), "subgroup": page.subgroup, "phase": page.phase, "view": page.view or None, "ready": page.ready,
            "moves": page.moves, "shards": [shown_value(shard) for shard in page.shards],
            "machines": [{"node": node, "name": page.machines.named(node)} for node in page.spoken_of], "text": page_lines(page)}


def shown_value(shard):
    return {"shard": shard.number, "needs": shard.wanted.needs if shard.wanted else None, "cap": shard.wanted.cap if shard.wanted else None,
            "holder": shard.holder, "target": position(shard.target) if shard.target else None,
            "machines": None if shard.members is None else sorted(shard.members)}


def shift_value(found):
    return {**head(SHIFT_SCHEMA), "rounds": found.rounds, "on": list(found.on), "winner": "crew" if found.first is None else "outage",
            "first": None if found.first in (None, PASSING) else found.first, "blows": [blow_value(blow) for blow in found.blows],
            "keep": found.keep, "needed": found.needed,
            "machines": [{"node": node, "name": found.settings.names[node] if found.settings.names else None}
                         for node in range(len(found.settings.set_of))],
            "text": shift_lines(found)}


def blow_value(blow):
    wait = {"reason": blow.wait.reason, "value": blow.wait.value if blow.wait.reason in (4, 5) else None} if blow.wait else None
    return {"lost": blow.lost, "held": blow.held, "back": list(blow.answers), "plan": blow.plan,
            "next": None if blow.next_loss in (None, PASSING) else blow.next_loss, "wait": wait}


def rounds_value(course, settings):
    """What is reached round by round, or the wait."""
    wait = course.wait
    return {**head(ROUNDS_SCHEMA), "wait": {"reason": wait.reason, "value": wait.value} if wait else None,
            "fewest": course.fewest, "unavoidable": course.floor, "enough": course.enough,
            "rounds": [step_value(number, course) for number in range(len(course.steps))],
            "machines": [{"node": node, "name": settings.names[node] if node < len(settings.names) else None} for node in sorted(settings.nodes)],
            "text": course_lines(course, settings)}


def step_value(number, course):
    step = course.steps[number]
    return {"rounds": number, "moves": step.moves, "gap": step.gap, "subgroup": course.subgroups[number],
            "shards": [{"shard": shard, "machines": sorted(nodes_of(mask))} for shard, mask in enumerate(step.masks)]}


def difference_value(paths, answers, gathered, settings, lines):
    """Two answers, what differs between them, and what of their inputs does."""
    one, other = answers
    plans = isinstance(one, Plan) and isinstance(other, Plan)
    compared = None not in gathered and None not in [source.settings for source in gathered]
    changes = settings_changes(*(source.settings for source in gathered)) if compared else []
    return {**head(DIFF_SCHEMA), "same": one == other,
            "answers": [{"file": path, **answer_value(answer)} for path, answer in zip(paths, answers)],
            "view": both_value(one.view, other.view) if plans else None, "moves": both_value(one.moves, other.moves) if plans else None,
            "shards": [value for value in map(placed_value, range(min(len(one.shards), len(other.shards))), one.shards, other.shards)
                       if len(value) > 1] if plans else [],
            "inputs_compared": compared,
            "settings": [{"part": change.part or "whole", "number": change.number, "value": change.name.replace(" ", "_"), "was": change.was,
                          "now": change.now} for change in changes],
            "inputs": input_parts(*gathered, settings) if compared else [], "text": lines}


def both_value(was, now):
    return {"was": was, "now": now} if was != now else None


def placed_value(shard, one, other):
    """What differs of a shard, the shard alone where nothing does."""
    value = {"shard": shard}
    if one.members != other.members:
        value["come"], value["leave"] = sorted(other.members - one.members), sorted(one.members - other.members)
    if one.holder != other.holder:
        value["holder"] = both_value(one.holder, other.holder)
    if one.target != other.target:
        value["target"] = both_value(position(one.target), position(other.target))
    return value
