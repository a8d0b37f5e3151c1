"""Refusals where a limit of the planner's format is passed."""

from pkslib.limits import (ACTIONS, ADDS, BYTES, CONDITION, COST, EFFECTS, FUNCTION_ARGUMENTS, FUNCTIONS, GOALS, GROUP,
                           PARAMETERS, PRECONDITIONS, PREDICATE_ARGUMENTS, PREDICATES, SENSES, TYPES, WILDCARDS)
from pkslib.limits import OBJECTS as OBJECTS_BY_VERSION

from .text import Form, Refusal

OBJECTS, OBJECTS_OF_VERSION_1 = OBJECTS_BY_VERSION[2], OBJECTS_BY_VERSION[1]

__all__ = ['ACTIONS', 'ADDS', 'BYTES', 'CONDITION', 'COST', 'EFFECTS', 'FUNCTIONS', 'FUNCTION_ARGUMENTS', 'GOALS', 'GROUP',
           'OBJECTS', 'OBJECTS_OF_VERSION_1', 'PARAMETERS', 'PRECONDITIONS', 'PREDICATES', 'PREDICATE_ARGUMENTS', 'SENSES',
           'TYPES', 'WILDCARDS', 'at_most']


def at_most(limit: int, number: int, form: Form, what: str, instead: str) -> None:
    """Refuses more than the limit; `what` has `{}` where the limit stands."""
    if number > limit:
        raise Refusal(form, f'{what.format(limit)}, and here are {number:,}', instead)
