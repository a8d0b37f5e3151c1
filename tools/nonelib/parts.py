"""What makes a plan for one goal alone, where the search for all goals doesn't end."""

from dataclasses import dataclass
from typing import List, Optional

from asklib.files import File
from pkslib import Expression

from .changes import Change
from .goals import with_goal
from .questions import Asking

MOST_PARTS = 2
"""With so many goals a change is asked, each alone."""


@dataclass(frozen=True)
class Part:
    """A goal that alone has no plan to some depth."""

    aim: Expression
    none_to: int


@dataclass(frozen=True)
class Helped:
    """A part that has a plan with a change, and the plan's depth."""

    part: Part
    depth: int


def parts(file: File, depth: int, asking: Asking, seconds: float) -> List[Part]:
    """Goals that have no plan alone, each to the greatest depth for which that is known in so many seconds."""
    found: List[Part] = []
    for aim in file.goal:
        to = none_to(with_goal(file, (aim,)), depth, asking, seconds)
        if to is not None:
            found.append(Part(aim, to))
        if len(found) == MOST_PARTS:
            break
    return found


def none_to(file: File, depth: int, asking: Asking, seconds: float) -> Optional[int]:
    """The greatest depth to which a file is known to have no plan; None where there is no such depth."""
    known: Optional[int] = None
    for at in range(1, depth + 1):
        outcome = asking.ask(file, at, seconds)
        if outcome.depth is not None:
            return None
        if not outcome.is_none:
            break
        known = at
    return known


def helped(change: Change, among: List[Part], asking: Asking, seconds: float) -> Optional[Helped]:
    """The first of some parts that has a plan with a change, to the depth to which it has none without."""
    for part in among:
        outcome = asking.begin(with_goal(change.file, (part.aim,)), part.none_to, seconds).result()
        if outcome.depth is not None:
            return Helped(part, outcome.depth)
    return None
