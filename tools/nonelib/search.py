"""In which order questions are asked, and for how long."""

from concurrent.futures import Future, TimeoutError
from dataclasses import dataclass, field, replace
from typing import Dict, Iterator, List, Optional, Sequence, Set, Tuple

from asklib.files import File
from pkslib import limits, written

from . import cases, changes, made, makers, swapped, traps
from .changes import Change, Rank
from .goals import Goals, alone, look_at
from .parts import Helped, Part, helped, parts
from .questions import SIDE_BY_SIDE, Asking, Outcome

WHOLE = 60.0
"""The seconds in all for which the slices are meant; with other times they are as much longer or shorter."""

SLICES = ((Rank.DEPTH, (8.0, 20.0, 20.0)), (Rank.SIGN, (3.0, 8.0, 20.0)), (Rank.GOAL, (1.0, 4.0, 15.0)))
"""The seconds that a question may take, round by round, below each rank."""


def seconds_for(rank: Rank, number: int, whole: float) -> float:
    """The seconds that a question of a rank may take in a round, where there are so many in all."""
    slices = next(slices for below, slices in SLICES if rank < below)
    return max(0.4, slices[number] * whole / WHOLE)


LONGER = 8
"""So many times as long as for its own depth a file is asked for a greater one."""

ASKED_DEEPER = (Rank.TOLD_TOGETHER, Rank.OTHER_WAY, Rank.FIND_OUT)
"""What a file lacks, and with what a plan may take more steps than were asked for."""

LATER = {Rank.CASE: Rank.START_LATE, Rank.SIGN: Rank.SIGN_SENSED}
"""Where a cause isn't the one that was taken for it, how late it is said."""

MOST_FOUND = 8
"""So many changes with a plan are enough."""


@dataclass
class Found:
    """All that was found out of a file without a plan."""

    base: Outcome
    outcomes: Dict[Change, Outcome] = field(default_factory=dict)
    """What came of each change that was asked; of one that couldn't be asked, that it isn't ended."""
    goals: Optional[Goals] = None
    parts: Dict[Change, Helped] = field(default_factory=dict)
    """The changes for which the search for all goals didn't end, and that make a plan for one of them."""
    lines: List[str] = field(default_factory=list)
    """What would make the goals known."""
    open: int = 0
    """How many changes weren't asked to their end that are as likely as what was found."""

    def cures(self) -> List[Change]:
        """The changes that have a plan."""
        return [change for change, outcome in self.outcomes.items() if outcome.depth is not None]


class Search:
    """Asks all questions about one file, the likeliest first."""

    def __init__(self, file: File, depth: int, asking: Asking) -> None:
        self.file, self.depth, self.asking = file, depth, asking
        self.base = asking.begin(file, depth, asking.seconds * 0.6)
        self.deeper = 0
        """The round in which the file is next asked deeper."""
        self.parts: List[Part] = []
        """The goals with which a change is asked alone where the search for all of them doesn't end."""
        self.asked_alone: Set[Change] = set()

    def candidates(self) -> Iterator[Change]:
        """All changes, the likeliest first."""
        missing = changes.missing_adds(self.file)
        yield from traps.traps(self.file)
        yield from changes.told(self.file, missing)
        yield from changes.told_members(self.file)
        yield from changes.told_apart(self.file)
        yield from changes.sensed_apart(self.file)
        yield from changes.guards(self.file)
        yield from changes.signs(self.file)
        yield from changes.values_before(self.file)
        yield from swapped.swapped(self.file)
        yield from changes.ways_back(self.file)
        yield from cases.outside_groups(self.file)
        yield from changes.found_out(self.file)
        yield from cases.without_action(self.file)
        yield from made.unmade(self.file)
        yield from changes.starts(self.file)
        yield from changes.contraries(self.file)
        yield from cases.without_sides(self.file)
        yield from changes.queries_out(self.file)

    def run(self) -> Optional[Found]:
        """What was found; None where the file has a plan."""
        try:
            base = self.base.result(timeout=min(2.0, self.asking.seconds / 4))
        except TimeoutError:
            base = Outcome(ended=False)
        if base.depth is not None:
            return None
        found = Found(base)
        if len(self.file.goal) > 1:
            seconds = seconds_for(Rank.START, 0, self.asking.seconds)
            alone(self.file, self.depth, self.asking, seconds)
            self.parts = [] if self.base.done() else parts(self.file, self.depth, self.asking, seconds / 2)
        self.ask_changes(found)
        self.ask_cases(found)
        try:
            found.base = self.base.result(timeout=None if not found.cures() else self.asking.left() / 4)
        except TimeoutError:
            pass
        if found.base.depth is not None:
            return None
        self.ask_deeper(found)
        self.ask_cures_deeper(found)
        self.ask_goals(found)
        return found

    def ask_deeper(self, found: Found) -> None:
        """Asks the file deeper, where it is known to have no plan of its depth and no likelier cause was found.

        The time is some times as long as the file itself took.
        """
        best = min((change.rank for change in found.cures()), default=Rank.GOAL)
        asked = [outcome for change, outcome in found.outcomes.items() if change.rank == Rank.DEPTH]
        if found.base.is_none and best > Rank.DEPTH and self.depth < limits.DEPTH \
                and not any(outcome.ended for outcome in asked):
            seconds = max(seconds_for(Rank.DEPTH, 0, self.asking.seconds), LONGER * found.base.seconds)
            found.outcomes[self.greater_depth()] = self.asking.ask(self.file, limits.DEPTH, seconds)

    def ask_cures_deeper(self, found: Found) -> None:
        """Asks deeper what the file lacks, where that alone made no plan and nothing likelier did."""
        if any(change.rank < Rank.START for change in found.cures()):
            return
        seconds = seconds_for(Rank.DEPTH, 0, self.asking.seconds)
        for change, outcome in list(found.outcomes.items()):
            if change.rank in ASKED_DEEPER and outcome.is_none and self.asking.left() > seconds:
                again = self.asking.ask(change.file, limits.DEPTH, seconds)
                if again.depth is not None:
                    found.outcomes[change] = again

    def greater_depth(self) -> Change:
        """The file itself to the greatest depth."""
        return Change(Rank.DEPTH, self.file, 'ask for a greater depth')

    def ask_changes(self, found: Found) -> None:
        """Asks all changes, round by round; once there is a cure, only for better ones."""
        every = list(self.candidates())
        found.outcomes = {change: Outcome(ended=False) for change in every if change.always}
        asked: Dict[File, Change] = {}
        for change in every:
            if change.what:
                asked.setdefault(change.file, change)
        by_rank = sorted(asked.values(), key=lambda change: change.rank)
        for number in range(3):
            self.ask_round(found, by_rank, number)
            if self.is_over(found):
                break
        best = min((change.rank for change in found.cures()), default=Rank.GOAL)
        if len(found.cures()) < MOST_FOUND:
            found.open = sum(change.rank <= best and not self.is_settled(found, change) for change in by_rank)

    def ask_round(self, found: Found, changes: Sequence[Change], number: int) -> None:
        """Asks changes, two at a time; the file itself deeper as soon as it is known to have no plan of its depth."""
        best = Rank.GOAL if number == 0 else min((change.rank for change in found.cures()), default=Rank.GOAL)
        left = [change for change in changes if change.rank < best and not self.is_settled(found, change)]
        tasks: List[Tuple[Change, 'Future[Outcome]']] = []
        while left and not self.is_over(found):
            if number == self.deeper and self.base.done() and best > Rank.DEPTH and self.depth < limits.DEPTH:
                self.deeper += 1
                left.insert(0, self.greater_depth())
            tasks.append((left[0], self.begin(left.pop(0), number)))
            if len(tasks) > SIDE_BY_SIDE:
                self.collect(found, *tasks.pop(0))
        for task in tasks:
            self.collect(found, *task)

    def ask_cases(self, found: Found) -> None:
        """Asks whether the cases of a change that has a plan have none; else its other cause is named."""
        seconds = seconds_for(Rank.SIGN, 0, self.asking.seconds)
        judged: Dict[Change, Outcome] = {}
        for change, outcome in found.outcomes.items():
            if change.cases and outcome.depth is not None \
                    and not all(self.asking.ask(case, self.depth, seconds).is_none for case in change.cases):
                change = replace(change, rank=LATER.get(change.rank, change.rank), why=change.otherwise)
            judged[change] = outcome
        found.outcomes = judged

    def is_settled(self, found: Found, change: Change) -> bool:
        """Whether it is known what comes of a change."""
        return change in found.outcomes and found.outcomes[change].ended

    def begin(self, change: Change, number: int) -> 'Future[Outcome]':
        """A question of a round."""
        depth = limits.DEPTH if change.rank == Rank.DEPTH else self.depth
        return self.asking.begin(change.file, depth, seconds_for(change.rank, number, self.asking.seconds))

    def collect(self, found: Found, change: Change, task: 'Future[Outcome]') -> None:
        """Takes what came of a question; where it isn't ended, the change is asked once with one goal alone."""
        found.outcomes[change] = task.result()
        if self.parts and not found.outcomes[change].ended and change not in self.asked_alone \
                and change.rank != Rank.DEPTH and change.file.goal == self.file.goal:
            self.asked_alone.add(change)
            part = helped(change, self.parts, self.asking, seconds_for(Rank.START, 0, self.asking.seconds))
            if part is not None:
                found.parts[change] = part

    def is_over(self, found: Found) -> bool:
        """Whether no more changes are asked."""
        has_plan = self.base.done() and self.base.result().depth is not None
        return has_plan or self.asking.left() < self.asking.seconds / 4 or len(found.cures()) >= MOST_FOUND

    def ask_goals(self, found: Found) -> None:
        """Asks which goals can be had, and what would make those known that can't."""
        seconds = max(0.5, min(5.0, self.asking.left() / (2 * len(self.file.goal) + 1)))
        found.goals = look_at(self.file, self.depth, self.asking, seconds)
        tree = makers.Tree(self.file, self.depth, self.asking, seconds)
        for aim in found.goals.alone:
            if found.goals.alone[aim].is_none and aim[0] in ('k', 'kw', 'kv') and self.asking.left() > 1:
                tree.lines.append(f'What would make {written(aim)} known:')
                tree.put(aim, 1)
        found.lines = tree.lines

