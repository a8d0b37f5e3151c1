"""Which goals can be had alone, and the smallest set of them that can't be had together."""

from dataclasses import dataclass, replace
from typing import Dict, List, Optional, Tuple

from asklib.files import File, List_
from pkslib import Expression, written

from .questions import Asking, Outcome


@dataclass
class Goals:
    """What was found of the goals of a file."""

    alone: Dict[Expression, Outcome]
    least: Optional[List_] = None
    """A set of goals that can't be had, of which each smaller one that was asked can."""
    without: Optional[Dict[Expression, Outcome]] = None
    """What comes of the whole goal without one of its parts."""
    is_least: bool = True
    """Whether each question for a smaller set ended."""


def with_goal(file: File, goal: List_) -> File:
    """The file with another goal."""
    return replace(file, goal=goal)


def look_at(file: File, depth: int, asking: Asking, seconds: float) -> Goals:
    """Asks each goal alone, each set that lacks one, and for a smallest set that can't be had."""
    goals = Goals(alone(file, depth, asking, seconds))
    if len(file.goal) < 2:
        return goals
    rests = {aim: asking.begin(with_goal(file, tuple(a for a in file.goal if a != aim)), depth, seconds)
             for aim in file.goal}
    goals.without = {aim: task.result() for aim, task in rests.items()}
    goals.least = least(file, depth, asking, seconds, goals)
    return goals


def alone(file: File, depth: int, asking: Asking, seconds: float) -> Dict[Expression, Outcome]:
    """What comes of each goal alone."""
    tasks = {aim: asking.begin(with_goal(file, (aim,)), depth, seconds) for aim in file.goal}
    return {aim: task.result() for aim, task in tasks.items()}


def least(file: File, depth: int, asking: Asking, seconds: float, goals: Goals) -> Optional[List_]:
    """The smallest set that was found of which the program says that there is no plan."""
    hopeless = [aim for aim, outcome in goals.alone.items() if outcome.is_none]
    if hopeless:
        return (hopeless[0],)
    kept: List_ = file.goal
    if not asking.ask(file, depth, seconds).is_none:
        return None
    for aim in file.goal:
        rest = tuple(a for a in kept if a != aim)
        if rest:
            outcome = asking.ask(with_goal(file, rest), depth, seconds)
            goals.is_least &= outcome.ended
            kept = rest if outcome.is_none else kept
    return kept


def said(goals: Goals, depth: int, is_hopeless: bool) -> List[str]:
    """What is printed of the goals; it may be known that there is no plan of any depth."""
    lines = ['Which goals can be had:']
    width = max(len(written(aim)) for aim in goals.alone)
    for aim, outcome in goals.alone.items():
        lines.append(f'    {written(aim):{width}}  alone: {in_words(outcome, depth)}')
    if goals.least and len(goals.least) == 1:
        lines.append(f'{written(goals.least[0])} can\'t be had to depth {depth}, even alone.')
    elif goals.least:
        lines.append(f'These can\'t be had together to depth {depth}: {" ".join(map(written, goals.least))}')
        if not goals.is_least:
            lines.append('Whether fewer of them can isn\'t known, the search didn\'t end in its time.')
        depths = [goals.alone[aim].depth or 0 for aim in goals.least]
        if sum(depths) > depth and not is_hopeless:
            lines.append(f'Alone they take {" and ".join(map(str, depths))} steps, one after another {sum(depths)}: it may be '
                         f'that {depth} is too small a depth.')
    for aim, outcome in (goals.without or {}).items():
        if outcome.depth is not None:
            lines.append(f'Without {written(aim)} there is a plan of depth {outcome.depth} for the rest.')
    return lines


def in_words(outcome: Outcome, depth: int) -> str:
    """An outcome in a few words."""
    if outcome.depth is not None:
        return f'a plan of depth {outcome.depth}'
    if outcome.is_none:
        return f'none to depth {depth}'
    return 'not known, the search didn\'t end in its time'
