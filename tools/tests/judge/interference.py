"""Interference: what an action may spoil (RULES 9)."""

from typing import Dict, Sequence, Tuple

from .lookup import Database
from .problems import Effect
from .terms import EQUATION, WILD, Literal, Term, applications, negated


class Interference:
    """An action's effects, the arguments put in, read in the databases before it."""

    def __init__(self, base: Database, effects: Tuple[Effect, ...]) -> None:
        self.base = base
        self.effects = effects
        self.firing = [self.may_fire(effect) for effect in effects]
        self._stable: Dict[Term, bool] = {}

    def may_fire(self, effect: Effect) -> bool:
        """Whether none of its conditions is derived false."""
        return not any(self.base.holds(negated(literal)) for literal in effect.condition)

    def may_hit(self, number: int, head: int, terms: Sequence[Term]) -> bool:
        """Whether the effect of this number may hit what has this predicate, or function, at these terms."""
        effect = self.effects[number]
        return (self.firing[number] and effect.head == head
                and not any(slot != WILD and self.base.differ(slot, term) for slot, term in zip(effect.slots, terms)))

    def some_may_hit(self, kinds: Sequence[str], head: int, terms: Sequence[Term]) -> bool:
        """Whether an effect of one of these kinds may hit it."""
        return any(effect.kind in kinds and self.may_hit(n, head, terms) for n, effect in enumerate(self.effects))

    def is_stable(self, term: Term) -> bool:
        """Whether no `assign` may hit an application that occurs in the term."""
        found = self._stable.get(term)
        if found is None:
            found = self._stable[term] = not any(
                self.some_may_hit(('assign',), place[1], place[2]) for place in applications(term))
        return found

    def spoils(self, literal: Literal) -> bool:
        """Whether the action spoils the literal."""
        kind, head, terms, sign = literal
        if not all(map(self.is_stable, terms)):
            return True
        return kind != EQUATION and self.some_may_hit(('set',) if sign else ('unset', 'clear'), head, terms)
