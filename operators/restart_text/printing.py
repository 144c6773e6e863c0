"""From values to text, in the forms that lines.py reads."""


def settings_text(settings):
    lines = ["settings", "failure sets %d" % settings.failure_sets, "least group size %d" % settings.least]
    for node, failure_set in enumerate(settings.set_of):
        named = node < len(settings.names) and settings.names[node]
        lines.append("node %d set %d" % (node, failure_set) + (" name %s" % named if named else ""))
    for number, shard in enumerate(settings.shards):
        cap = " cap %d" % shard.given_cap if shard.given_cap else ""
        lines.append("shard %d subgroup %d needs %d%s" % (number, shard.subgroup, shard.needs, cap))
    return lines


def report_text(report):
    lines = ["report node %d view %d" % (report.node, report.view.number)] + view_text(report.view)
    lines += ["termination shard %d view %d update %d" % (shard, *at) for shard, at in enumerate(report.termination or ())]
    for shard, runs in enumerate(report.runs):
        lines += ["run shard %d view %d count %d" % (shard, *run) for run in runs]
    return lines


def order_text(order):
    lines = ["order node %d view %d" % (order.node, order.view.number)] + view_text(order.view)
    lines += ["target shard %d view %d update %d" % (shard, *at) for shard, at in enumerate(order.targets)]
    for shard, holder in sorted(order.holders.items()):
        lines.append("holder shard %d node %d" % (shard, holder))
        lines.append("cut shard %d view %d update %d" % (shard, *order.cuts[shard]))
    return lines


def view_text(view):
    lines = ["members " + numbers(view.members)]
    return lines + ["shard %d members %s" % (shard, numbers(nodes)) for shard, nodes in enumerate(view.shards)]


def state_text(state):
    lines = ["state " + state.phase]
    if state.kept:
        lines.append("kept view %d" % state.kept.number)
        lines += ["kept " + line for line in view_text(state.kept)]
    lines += ["kept termination shard %d view %d update %d" % (shard, *at) for shard, at in enumerate(state.termination or ())]
    for name in ("held", "fetched", "prepared"):
        lines.append("%s %s" % (name, numbers(getattr(state, name))))
    lines += ["remembered node %d view %d" % (node, view) for node, view in enumerate(state.latest) if view]
    if state.plan:
        view = state.plan.view
        lines += ["plan view %d moves %d" % (view.number, state.plan.moves), "plan members " + numbers(view.members)]
        for shard, (holder, target) in enumerate(zip(state.plan.holders, state.plan.targets)):
            lines.append("plan shard %d holder %d target %d %d members %s" % (shard, holder, *target, numbers(view.shards[shard])))
    return lines


def raw_text(name, words):
    """A block that cannot be read, word by word: four in a line, a record of a message."""
    lines = ["%s of %d words" % (name, len(words))]
    return lines + [" ".join(map(str, words[place : place + 4])) for place in range(0, len(words), 4)]


def numbers(nodes):
    return " ".join(map(str, sorted(nodes))) or "none"
