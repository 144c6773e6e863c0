"""Exit statuses."""
from .answers import Number, Plan, Wait

PLAN, WAIT, REFUSAL, OTHER = range(4)


def status_of(told):
    """The exit status for an explained answer."""
    if not told.agrees:
        return OTHER
    return {Plan: PLAN, Wait: WAIT, Number: REFUSAL}[type(told.answer)]
