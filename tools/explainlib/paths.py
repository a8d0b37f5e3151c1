"""Paths through a tree: what was done, and which sides were taken."""

from typing import Iterable, Tuple, Union

from explainlib.problem import Effect, Literals, Term

Side = Tuple[int, str, Union[Literals, Term], Union[str, Term]]
"""A moment, `branch` or `cases`, what is chosen on, and the side."""


class Path:
    """Actions with their effects, and sides: (moment, kind, what is chosen on, side)."""

    def __init__(self, effects: Tuple[Tuple[Effect, ...], ...] = (), sides: Tuple[Side, ...] = ()) -> None:
        self.effects = effects
        self.sides = sides

    def moment(self) -> int:
        """The moment at its end."""
        return len(self.effects)

    def acted(self, effects: Iterable[Effect]) -> 'Path':
        """The path with an action more."""
        return Path(self.effects + (tuple(effects),), self.sides)

    def taken(self, kind: str, on: Union[Literals, Term], side: Union[str, Term]) -> 'Path':
        """The path with a side more."""
        return Path(self.effects, self.sides + ((self.moment(), kind, on, side),))
