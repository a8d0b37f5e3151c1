"""What a file states, as far as it can be read: its declarations, its actions, its start, its goal and its world."""

from itertools import product
from typing import Dict, Iterator, List, NamedTuple, Optional, Tuple, Union

from .forms import Expression, Form, Text
from .worlds import Fact


class Function(NamedTuple):
    """The types of a function's arguments, and that of its value."""

    arguments: Tuple[str, ...]
    result: str


class Action(NamedTuple):
    """An action: its sections by their heads."""

    name: str
    cost: int
    sections: Dict[str, Tuple[Expression, ...]]

    @property
    def parameters(self) -> Tuple[str, ...]:
        """The names of its parameters, with their question marks."""
        return tuple(str(pair[0]) for pair in self.sections.get('params', ()))

    @property
    def senses(self) -> Tuple[Expression, ...]:
        """What it senses."""
        return self.sections.get('senses', ())


class File:
    """A file that is accepted; of another one what can be read of it."""

    def __init__(self, data: Union[bytes, str]) -> None:
        text = Text(data)
        parts = {head: self._section(text, head) for head in ('domain', 'problem', 'world')}
        self.version = 2 if text.forms and text.forms[0].text() == '(pks 2)' else 1
        """1 or 2."""
        self.types: Dict[str, Optional[str]] = {}
        """Each type with its parent."""
        self.objects: Dict[str, str] = {}
        """Each object with its type, in the order of declaration."""
        self.predicates: Dict[str, Tuple[str, ...]] = {}
        """Each predicate with the types of its arguments."""
        self.functions: Dict[str, Function] = {}
        """Each function with its types."""
        self.actions: Dict[str, Action] = {}
        """Each action by its name, in order."""
        for section in parts['domain']:
            self._declare(section)
        problem = _sections(parts['problem'])
        self.init = problem.get('init', ())
        """The items of the start, in order."""
        self.goal = problem.get('goal', ())
        """The queries and aims of the goal, in order."""
        found = next((form for form in text.forms if form.head() == 'world'), None)
        self.world_at = None if found is None else (found.start, found.end)
        """The offsets of the world's first byte and behind its last, where there is a world."""

    @staticmethod
    def _section(text: Text, head: str) -> List[Form]:
        return next((form.rest() for form in text.forms if form.head() == head), [])

    def _declare(self, section: Form) -> None:
        if section.head() == 'action':
            name = (section.rest() or [section])[0].word
            if name is not None:
                self.actions.setdefault(name, _action(name, section))
            return
        for entry in section.rest():
            words = [part.word for part in entry.parts if part.word] if entry.is_list() else [entry.word or '']
            if words:
                self._enter(section.head() or '', words[0], words[1:])

    def _enter(self, kind: str, first: str, rest: List[str]) -> None:
        if kind == 'types':
            self.types.setdefault(first, rest[0] if rest else None)
        elif kind == 'objects':
            for name in rest:
                self.objects.setdefault(name, first)
        elif kind == 'predicates':
            self.predicates.setdefault(first, tuple(rest))
        elif kind == 'functions' and rest:
            self.functions.setdefault(first, Function(tuple(rest[:-1]), rest[-1]))

    def fits(self, kind: Optional[str], wanted: str) -> bool:
        """Whether a type is another, or below it."""
        seen = 0
        while kind is not None and kind != wanted and seen <= len(self.types):
            kind, seen = self.types.get(kind), seen + 1
        return kind == wanted

    def objects_of(self, kind: str) -> List[str]:
        """The objects of a type and of those below it, in order."""
        return [name for name, own in self.objects.items() if self.fits(own, kind)]

    def instances(self, head: str, kinds: Tuple[str, ...]) -> Iterator[Fact]:
        """A predicate or a function at all objects of these types, in order."""
        for objects in product(*map(self.objects_of, kinds)):
            yield (head, *objects)

    def places(self) -> Iterator[Fact]:
        """Each function at all objects of its types, in order."""
        for name, function in self.functions.items():
            yield from self.instances(name, function.arguments)


def _sections(forms: List[Form]) -> Dict[str, Tuple[Expression, ...]]:
    """The parts of each section, by its head."""
    found: Dict[str, Tuple[Expression, ...]] = {}
    for form in forms:
        head = form.head()
        if head is not None:
            found.setdefault(head, tuple(part.expression() for part in form.rest()))
    return found


def _action(name: str, form: Form) -> Action:
    sections = _sections(form.parts[2:])
    cost = sections.get('cost', ())
    is_number = len(cost) == 1 and isinstance(cost[0], str) and cost[0].isdigit()
    return Action(name, int(str(cost[0])) if is_number else 1, sections)


def costs(text: Union[bytes, str]) -> Dict[str, int]:
    """The cost of each action of a file, 1 where it names none."""
    return {name: action.cost for name, action in File(text).actions.items()}
