"""Facts that no action changes."""

from typing import Optional, Sequence, Set

from .conditions import Literal
from .declared import Declared
from .start import Start
from .text import Form


def changed(form: Form) -> Set[Optional[str]]:
    """The predicates that an effect, as PDDL writes it, may change."""
    head = form.head()
    if head in ('and', 'not'):
        return {word for part in form.rest() for word in changed(part)}
    if head in ('when', 'forall'):
        return changed(form.parts[-1])
    return {head}


def set_by(form: Form) -> Set[Optional[str]]:
    """The predicates that an effect, as PDDL writes it, may make true."""
    head = form.head()
    if head == 'not':
        return set()
    if head == 'and':
        return {word for part in form.rest() for word in set_by(part)}
    return set_by(form.parts[-1]) if head in ('when', 'forall') else {head}


def growing(declared: Declared, actions: Sequence[Form]) -> Set[Optional[str]]:
    """The predicates of which an action may make facts true."""
    words = {word for action in actions for key, part in zip(action.parts, action.rest())
             if key.word == ':effect' for word in set_by(part)}
    return {declared.names.find('predicate', word) for word in words}


class Fixed:
    """What is known for ever."""

    def __init__(self, declared: Declared, actions: Sequence[Form], start: Start) -> None:
        self.start = start
        self.objects = declared.objects
        words = {word for action in actions for word, part in zip(action.parts, action.rest())
                 if word.word == ':effect' for word in changed(part)}
        names = {declared.names.find('predicate', word) for word in words}
        self.predicates = set(declared.predicates) - names - set(start.helpers)

    def denies(self, literal: Literal) -> bool:
        """Whether a literal over objects is false for ever."""
        return (literal.name in self.predicates and literal.atom() not in self.start.unknown
                and all(arg in self.objects for arg in literal.args)
                and (literal.atom() in self.start.facts) != literal.positive)
