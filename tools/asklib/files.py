"""A file as a value: it is read, changed in one place or another, and written again for a question."""

import itertools
from dataclasses import dataclass, replace
from functools import cached_property
from typing import Dict, Iterator, List, Optional, Sequence, Tuple, Union

from pkslib import Expression, Malformed, expressions, written

List_ = Tuple[Expression, ...]
"""A list of a file."""

OVER_TIME = ('at-start', 'always', 'once')
"""The heads of aims over time."""


@dataclass(frozen=True)
class Action:
    """An action of a file, section by section."""

    name: str
    cost: List_ = ()
    params: List_ = ()
    pre: List_ = ()
    effects: List_ = ()
    senses: List_ = ()
    knows: List_ = ()

    @property
    def parameters(self) -> Dict[str, str]:
        """The type of each parameter, in order."""
        return {str(entry[0]): str(entry[1]) for entry in self.params}

    def with_args(self, expression: Expression, arguments: Sequence[Expression]) -> Expression:
        """The expression with the arguments put in for the parameters."""
        return put_in(expression, dict(zip(self.parameters, arguments)))

    def expression(self) -> Expression:
        """The action as it stands in a file."""
        sections = [(head, getattr(self, head)) for head in SECTIONS]
        return ('action', self.name, *((head, *parts) for head, parts in sections if parts))


SECTIONS = ('cost', 'params', 'pre', 'effects', 'senses', 'knows')


@dataclass(frozen=True)
class File:
    """A file without its world."""

    version: int
    types: List_
    objects: List_
    predicates: List_
    functions: List_
    actions: Tuple[Action, ...]
    init: List_
    goal: List_

    def text(self) -> str:
        """The file as the program reads it."""
        declared = [(head, getattr(self, head)) for head in DECLARATIONS]
        domain = ['(domain', *(f' {written((head, *parts))}' for head, parts in declared if parts),
                  *(f' {written(action.expression())}' for action in self.actions)]
        init = [f' {written(("init", *self.init))}'] if self.init else []
        problem = ['(problem', *init, f' {written(("goal", *self.goal))}']
        return '\n'.join([f'(pks {self.version})', *domain]) + ')\n' + '\n'.join(problem) + ')\n'

    # What is declared

    @cached_property
    def parents(self) -> Dict[str, Optional[str]]:
        """The parent of each type, or None."""
        return {str(kind) if isinstance(kind, str) else str(kind[0]):
                None if isinstance(kind, str) else str(kind[1]) for kind in self.types}

    @cached_property
    def kinds(self) -> Dict[str, str]:
        """The type of each object, in order."""
        return {str(name): str(entry[0]) for entry in self.objects for name in entry[1:]}

    @cached_property
    def arguments(self) -> Dict[str, Tuple[str, ...]]:
        """The types of the arguments of each predicate and of each function."""
        heads = [*self.predicates, *(entry[:-1] for entry in self.functions)]
        return {str(entry[0]): tuple(map(str, entry[1:])) for entry in heads}

    @cached_property
    def results(self) -> Dict[str, str]:
        """The type of the value of each function."""
        return {str(entry[0]): str(entry[-1]) for entry in self.functions}

    @cached_property
    def predicate_names(self) -> Tuple[str, ...]:
        """The predicates, in order."""
        return tuple(str(entry[0]) for entry in self.predicates)

    def action(self, name: str) -> Optional[Action]:
        """The action of this name, or None."""
        return next((action for action in self.actions if action.name == name), None)

    def fits(self, own: Optional[str], wanted: str) -> bool:
        """Whether a thing of the one type may stand where the other is wanted."""
        for _ in range(len(self.parents) + 1):
            if own == wanted:
                return True
            own = self.parents.get(own or '')
        return False

    def of_type(self, wanted: str) -> List[str]:
        """The objects of a type."""
        return [name for name, own in self.kinds.items() if self.fits(own, wanted)]

    def type_of(self, term: Expression) -> Optional[str]:
        """The type of an object or of a function's value, or None."""
        return self.kinds.get(term) if isinstance(term, str) else self.results.get(str(term[0]))

    def instances(self, head: str) -> Iterator[List_]:
        """A predicate, or a function, at each choice of objects for its arguments."""
        for objects in itertools.product(*(self.of_type(kind) for kind in self.arguments[head])):
            yield (head, *objects)

    def count(self, types: Sequence[str]) -> int:
        """How many choices of objects these types have."""
        number = 1
        for kind in types:
            number *= len(self.of_type(kind))
        return number

    # What is changed

    def with_action(self, name: str, **sections: List_) -> 'File':
        """The file with sections of one action replaced."""
        return replace(self, actions=tuple(replace(action, **sections) if action.name == name else action
                                           for action in self.actions))

    def with_init(self, *items: Expression) -> 'File':
        """The file with further items of `init`."""
        return replace(self, init=self.init + items)


DECLARATIONS = ('types', 'objects', 'predicates', 'functions')


def read_file(text: Union[bytes, str]) -> File:
    """An accepted file as a value; Malformed where its forms can't be those of a file."""
    forms = expressions(text)
    if len(forms) < 3 or any(isinstance(form, str) for form in forms):
        raise Malformed('no file: it has a version, a domain and a problem')
    version, domain, problem = (form for form in forms[:3] if not isinstance(form, str))
    types, objects, predicates, functions = (section(domain, head) for head in DECLARATIONS)
    actions = tuple(read_action(part) for part in domain[1:] if part[0] == 'action')
    return File(int(str(version[1])), types, objects, predicates, functions, actions, section(problem, 'init'),
                section(problem, 'goal'))


def section(form: List_, head: str) -> List_:
    """The parts of a section, or none."""
    return next((tuple(part[1:]) for part in form[1:] if not isinstance(part, str) and part[0] == head), ())


def read_action(form: Expression) -> Action:
    """An action of a file."""
    assert not isinstance(form, str)
    return Action(str(form[1]), *(section(form[1:], head) for head in SECTIONS))


# Expressions

def put_in(expression: Expression, given: Dict[str, Expression]) -> Expression:
    """The expression with terms put in for words."""
    if isinstance(expression, str):
        return given.get(expression, expression)
    return tuple(put_in(part, given) for part in expression)


def negated(literal: Expression) -> Expression:
    """The negation of a literal."""
    return literal[1] if literal[0] == 'not' else ('not', literal)


def atom_of(literal: Expression) -> List_:
    """The atom or the equation of a literal."""
    atom = literal[1] if literal[0] == 'not' else literal
    assert not isinstance(atom, str)
    return atom


def words_of(expression: Expression) -> Iterator[str]:
    """All words that stand in an expression."""
    if isinstance(expression, str):
        yield expression
    else:
        for part in expression:
            yield from words_of(part)


def applications(expression: Expression, functions: Sequence[str]) -> Iterator[List_]:
    """All places of functions that stand in an expression, inner ones first."""
    if not isinstance(expression, str):
        for part in expression[1:]:
            yield from applications(part, functions)
        if expression and expression[0] in functions:
            yield expression
