"""Worlds: the atoms that are true, and the value of each place."""

from typing import Dict, Iterable, List, Mapping, Optional, Set, Tuple

from .forms import Expression, written
from .trees import Literal, Term

Fact = Tuple[str, ...]
"""An atom or a place with objects, as `('in', 'cup', 'hall')`."""


class World:
    """A world, in which terms have values and literals are true or false."""

    def __init__(self, true: Iterable[Fact] = (), values: Optional[Mapping[Fact, str]] = None) -> None:
        self.true: Set[Fact] = set(true)
        """The atoms that are true; each other one is false."""
        self.values: Dict[Fact, str] = dict(values or {})
        """The value of each place, by the place."""

    def value(self, term: Term) -> str:
        """The object that is the value of a term; KeyError, with the place, where a place has none."""
        return term if isinstance(term, str) else self.values[self.place(term)]

    def place(self, atom: Expression) -> Fact:
        """An atom or an application with the values of its arguments; KeyError as `value`."""
        return (str(atom[0]),) + tuple(self.value(term) for term in atom[1:])

    def holds(self, literal: Literal) -> bool:
        """Whether a literal is true; KeyError as `value`."""
        if literal[0] == 'not':
            return not self.holds(literal[1])
        if literal[0] == '=':
            return self.value(literal[1]) == self.value(literal[2])
        return self.place(literal) in self.true

    def lines(self) -> List[str]:
        """The world as a form of a file, line by line."""
        true = [written(atom) for atom in sorted(self.true)]
        values = [f'({written(place)} {value})' for place, value in sorted(self.values.items())]
        sections = [_section(word, parts) for word, parts in (('true', true), ('values', values)) if parts]
        lines = ['(world'] + ['  ' + line for section in sections for line in section]
        lines[-1] += ')'
        return lines


def _section(word: str, parts: List[str]) -> List[str]:
    """A section with as many parts to the line as there is room for."""
    lines, line = [], f'({word}'
    for part in parts:
        if len(line) + len(part) > 95:
            lines.append(line)
            line = ' '
        line += ' ' + part
    return lines + [line + ')']
