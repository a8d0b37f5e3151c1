"""Questions along a way, and what the program answers."""

import re
from dataclasses import dataclass, field, replace
from typing import Callable, Dict, FrozenSet, List, Optional, Sequence, Tuple, Union

import pkslib
from asklib.files import File, List_
from pkslib import Act, Branch, Cases, Expression, Side, limits

from .staged import Asked, Fork, Names, Question, Step, depth, staged

Way = Tuple[Callable[[Question], Question], ...]
"""The steps that were made: each puts itself before what follows."""


@dataclass(frozen=True)
class State:
    """What is known at the end of a way."""

    known: Tuple[str, ...] = ()
    """The known literals, in order."""
    answered: FrozenSet[Expression] = frozenset()
    """Which of the queries that were asked are answered."""
    impossible: bool = False
    """Whether no run comes there."""
    otherwise: str = ''
    """What the program tested on the way and the plan doesn't, where it went another way to the same end."""


class Lost(Exception):
    """The program doesn't go the way, or it can't be asked; the text says why."""


@dataclass
class Asker:
    """Asks along the ways of one file."""

    file: File
    seconds: Optional[float] = None
    calls: int = 0
    names: Names = field(init=False)

    def __post_init__(self) -> None:
        self.names = Names(self.file)

    def at(self, way: Way, queries: Sequence[Expression]) -> State:
        """What is known at the end of a way; Lost where it can't be gone, TooMany where the question is too big."""
        room = limits.DEPTH - len(way)
        if room < 1:
            raise Lost(f'a question takes a step too, and a plan has {limits.DEPTH} at most')
        wanted = tuple(dict.fromkeys(queries))
        most = room * (limits.EFFECTS - 1)
        state = self.once(way, wanted[:most])
        for at in range(most, len(wanted), most):
            state = replace(state, answered=state.answered | self.once(way, wanted[at:at + most]).answered)
        return state

    def once(self, way: Way, queries: List_) -> State:
        """The answers to queries that one question holds."""
        question: Question = Asked(queries)
        for step in reversed(way):
            question = step(question)
        printed = self.call('recall', question, ())
        if printed is None:
            raise Lost('the program does not go this way')
        return self.read(printed, queries, tested(question))

    def whole(self, question: Question, aim: Expression) -> bool:
        """Whether an aim is met at each end of a whole plan."""
        return self.call('plan', question, (aim,)) is not None

    def call(self, mode: str, question: Question, goal: List_) -> Optional[str]:
        """What the program prints, or None where it derives no plan."""
        self.calls += 1
        made = staged(self.file, self.names, question, goal)
        try:
            return pkslib.ask([mode, str(depth(question))], made.text(), self.seconds)
        except pkslib.NoPlan:
            return None

    def read(self, printed: str, queries: List_, meant: FrozenSet[Expression]) -> State:
        """The state that a recall tells of the leaf where was asked."""
        lines = printed.splitlines()
        first = lines.index('leaf 1')
        ways = list(pkslib.ways(pkslib.read_plan('\n'.join(lines[:first]) + '\n')))
        moments = read_moments(lines[first:])
        for number, way in enumerate(ways, 1):
            acts = [step for step in way.steps if isinstance(step, Act)]
            asks = [at for at, act in enumerate(acts) if self.names.is_question(act.name)]
            if asks:
                here, end = moments[number][asks[0]], moments[number][-1]
                sides = [step.at for step in way.steps if isinstance(step, Side)]
                others = [at.text() for at in sides if not parts_of(at) <= meant]
                return State(tuple(filter(self.is_news, here)), self.told(end, queries), otherwise=', '.join(others))
        return State(impossible=True)

    def is_news(self, text: str) -> bool:
        """Whether a known literal says something, and that of the file."""
        return not (is_trivial(text) or self.names.is_own(text))

    def told(self, end: Sequence[str], queries: List_) -> FrozenSet[Expression]:
        """The queries whose answer stands among the literals that are known at the end."""
        pattern = re.compile(rf'\({self.names.said} {self.names.kind}-(\d+)\)')
        found = (pattern.fullmatch(text) for text in end)
        return frozenset(queries[int(match[1])] for match in found if match)


SAME = re.compile(r'\(= (.+) \1\)')
"""That something equals itself."""

DIFFERENT = re.compile(r'\(not \(= [^() ]+ [^() ]+\)\)')
"""That two objects differ: a term in parentheses is a value, and any other one an object."""


def is_trivial(text: str) -> bool:
    """Whether a literal says no more than that something equals itself, or that two objects differ."""
    return bool(SAME.fullmatch(text) or DIFFERENT.fullmatch(text))


def tested(question: Question) -> FrozenSet[Expression]:
    """The literals and terms that are tested in a question."""
    if isinstance(question, Step):
        return tested(question.next)
    if isinstance(question, Fork):
        return frozenset(question.tested).union(*(tested(child) for _, child in question.sides))
    return frozenset()


def parts_of(at: Union[Branch, Cases]) -> FrozenSet[Expression]:
    """What a branch or cases test."""
    return frozenset(at.literals if isinstance(at, Branch) else (at.term,))


def read_moments(lines: Sequence[str]) -> Dict[int, List[List[str]]]:
    """Of each leaf of a recall, by its number, the literals of each moment."""
    leaves: Dict[int, List[List[str]]] = {}
    number = 0
    for line in lines:
        if line.startswith('leaf '):
            number = int(line.split()[1])
            leaves[number] = []
        elif line.startswith('moment '):
            leaves[number].append([])
        elif line.startswith('('):
            leaves[number][-1].append(line)
    return leaves
