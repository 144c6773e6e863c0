"""A restart as it stands, in the library: settings, state and desk, and what would be decided, ordered or dropped there. State and desk that
are lent stay as they are."""
import ctypes

from . import decode, words
from .answers import BadAnswer, Number, Placed, Plan, printed
from .gathering import cut
from .library import BUFFER_BYTES, CLASS, DESK_BYTES, PLAN, PLANNER, STATE_BYTES, Restart, lent, loaded, refusal, taken, waited

RUNNING = {"restart_check_state": "nrrr", "restart_drop": "nrwrn", "restart_decide": "nrwr", "restart_order": "nrrrnw"}
PLAN_VIEW, PLAN_MOVES, MASKS, HOLDERS, TARGETS = 55, 57, 58, 74, 90  # the words of a state that have its plan


class Running:
    """The calls over these bytes: settings, state and desk."""

    def __init__(self, path, settings, state, desk):
        self.calls = loaded(path, RUNNING, "drive a restart")
        self.settings, self.shards = settings, words.from_bytes(settings)[3]
        self.state = ctypes.create_string_buffer(state, STATE_BYTES)
        self.desk = ctypes.create_string_buffer(desk, DESK_BYTES)

    def check(self):
        """The Number by which the state is refused, or None where it is sound."""
        answer = self.calls.restart_check_state(*lent(PLANNER, self.settings, self.state, self.desk))
        return refusal("restart_check_state", answer) if answer else None

    def drop(self, node):
        answer = self.calls.restart_drop(*lent(PLANNER, self.settings, self.state, self.desk, node))
        if answer:
            raise BadAnswer("restart_drop answers %d for machine %d, which is held" % (answer, node))

    def decided(self):
        """What restart_decide says, on a copy of the state: Plan, Wait or the Number of a refusal."""
        return self.decide(ctypes.create_string_buffer(self.state.raw, STATE_BYTES))

    def decide(self, state=None):
        """The same in the state itself, which then has the plan."""
        state = state or self.state
        answer = self.calls.restart_decide(*lent(PLANNER, self.settings, state, self.desk))
        return plan_in(words.from_bytes(state.raw), self.shards) if answer // CLASS == PLAN else waited(answer) or refusal("restart_decide", answer)

    def order(self, node):
        """The words of a held machine's order, or the Number of a refusal."""
        buffer = ctypes.create_string_buffer(BUFFER_BYTES)
        answer = self.calls.restart_order(*lent(PLANNER, self.settings, self.state, self.desk, node, buffer))
        return taken("restart_order", answer, buffer)


def plan_in(state, shards):
    """The plan in the words of a state, as the program prints it."""
    return Plan(state[PLAN_VIEW], state[PLAN_MOVES], tuple(
        Placed(state[HOLDERS + shard], (state[TARGETS + 2 * shard], state[TARGETS + 2 * shard + 1]), words.nodes_of(state[MASKS + shard]))
        for shard in range(shards)))


def after_reports(path, blocks):
    """A restart after these reports, all of which are taken."""
    restart = Restart(path, blocks[0])
    for block in blocks[1:]:
        refused = restart.report(block)
        if refused:
            raise BadAnswer("the library refuses a report with number %d, which the program takes" % refused.number)
    return Running(path, restart.settings, restart.state.raw, restart.desk.raw)


def dropped_answer(path, blocks, nodes):
    """What would be decided after these reports once these held machines are dropped: Plan or Wait."""
    running = after_reports(path, blocks)
    for node in nodes:
        running.drop(node)
    answer = running.decided()
    if isinstance(answer, Number):
        raise BadAnswer("restart_decide refuses with number %d while gathering" % answer.number)
    return answer


def order_differences(path, blocks, gathered, plan):
    """Where the library's plan, or what its orders have machines keep, is not what this tool counts; nothing where there is no library."""
    try:
        running = after_reports(path, blocks)
    except BadAnswer:
        return []
    answer, found, settings = running.decide(), [], gathered.settings
    if answer != plan:
        return ["the library decides: %s" % printed(answer) + " with other shards" * (printed(answer) == printed(plan))]
    for node in sorted(gathered.held):
        order = decode.order_from(running.order(node), settings)
        found += ["machine %s keeps its log of shard %d up to (%d, %d), and its order says otherwise" % (settings.name(node), shard, *own)
                  for shard, holder in order.holders.items()
                  for own in [cut(gathered, node, shard, holder, order.targets[shard])] if own != order.cuts[shard]]
    return found
