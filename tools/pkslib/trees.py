"""Plans as trees, and the reader of printed ones."""

import re
from dataclasses import dataclass, field
from functools import cached_property
from typing import Iterator, List, Mapping, Optional, Sequence, Tuple, Union

from .forms import Expression, Malformed, expressions, written
from .limits import DEPTH

Term = Expression
"""A term: the name of an object, or a function with its arguments, as `('loc', 'cup')`."""

Literal = Expression
"""A literal: `('open',)`, `('not', ('open',))`, `('=', ('combo',), 'c3')`."""


@dataclass(frozen=True)
class Leaf:
    """The end of a way: Goal or Impossible."""

    @property
    def cost(self) -> int:
        """What it costs: nothing."""
        return 0

    @property
    def depth(self) -> int:
        """How many steps are left: none."""
        return 0

    @property
    def leaves(self) -> 'Tuple[Leaf, ...]':
        """The leaf alone."""
        return (self,)


@dataclass(frozen=True)
class Goal(Leaf):
    """A way ends where the goal is known."""


@dataclass(frozen=True)
class Impossible(Leaf):
    """A side to which no run comes."""


class _Inner:
    """What actions, branches and cases have in common."""

    @property
    def children(self) -> 'Tuple[Tree, ...]':
        """The trees below, from left to right."""
        raise NotImplementedError

    @property
    def price(self) -> int:
        """What this step alone costs."""
        return 1

    @cached_property
    def cost(self) -> int:
        """What the dearest way costs; a branch and cases cost 1."""
        return self.price + max(child.cost for child in self.children)

    @cached_property
    def depth(self) -> int:
        """The steps of the longest way; a branch and cases are a step each."""
        return 1 + max(child.depth for child in self.children)

    @cached_property
    def leaves(self) -> 'Tuple[Leaf, ...]':
        """The ends of all ways, from left to right."""
        return tuple(leaf for child in self.children for leaf in child.leaves)


@dataclass(frozen=True)
class Act(_Inner):
    """An action with its arguments, and the plan behind it."""

    name: str
    arguments: Tuple[Term, ...]
    next: 'Tree'
    own_cost: int = field(default=1, compare=False)
    """What the action costs, where the costs were told to the reader; else 1."""

    @property
    def children(self) -> 'Tuple[Tree, ...]':
        """The plan behind it alone."""
        return (self.next,)

    @property
    def price(self) -> int:
        """What the action alone costs."""
        return self.own_cost

    def text(self) -> str:
        """The action as it is printed."""
        return written((self.name, *self.arguments))


@dataclass(frozen=True)
class Branch(_Inner):
    """A test of literals, with the plan where all are true and the plan where one isn't."""

    literals: Tuple[Literal, ...]
    true: 'Tree'
    false: 'Tree'

    @property
    def children(self) -> 'Tuple[Tree, ...]':
        """The plan of the side `true`, and that of the side `false`."""
        return (self.true, self.false)

    def text(self) -> str:
        """The literals as they are printed."""
        return ' '.join(map(written, self.literals))


@dataclass(frozen=True)
class Cases(_Inner):
    """A term, with a plan for each object that may be its value."""

    term: Term
    sides: 'Tuple[Tuple[str, Tree], ...]'
    """Each object with its plan, in order."""

    @property
    def children(self) -> 'Tuple[Tree, ...]':
        """The plan of each case, in order."""
        return tuple(tree for _, tree in self.sides)

    def text(self) -> str:
        """The term as it is printed."""
        return written(self.term)


Tree = Union[Act, Branch, Cases, Goal, Impossible]
"""A plan."""


@dataclass(frozen=True)
class Side:
    """A side that a way takes: of a branch `true` or `false`, of cases an object."""

    at: Union[Branch, Cases]
    taken: str

    @property
    def price(self) -> int:
        """What the branch or the cases cost."""
        return self.at.price

    def text(self) -> str:
        """What is tested and the side, as in a printed run."""
        return f'{self.at.text()} {self.taken}'


@dataclass(frozen=True)
class Way:
    """A way from the root of a plan to a leaf."""

    steps: Tuple[Union[Act, Side], ...]
    leaf: Leaf

    @property
    def cost(self) -> int:
        """What its steps cost together."""
        return sum(step.price for step in self.steps)


def sides(tree: Tree) -> List[Tuple[str, Tree]]:
    """The sides of a branch or of cases, each with its plan; of any other tree none."""
    if isinstance(tree, Branch):
        return [('true', tree.true), ('false', tree.false)]
    return list(tree.sides) if isinstance(tree, Cases) else []


def ways(tree: Tree) -> Iterator[Way]:
    """All ways through a plan, from left to right."""
    stack: List[Tuple[Tree, Tuple[Union[Act, Side], ...]]] = [(tree, ())]
    while stack:
        at, steps = stack.pop()
        if isinstance(at, (Goal, Impossible)):
            yield Way(steps, at)
        elif isinstance(at, Act):
            stack.append((at.next, steps + (at,)))
        else:
            stack += [(child, steps + (Side(at, taken),)) for taken, child in reversed(sides(at))]


# Reading

class _Lines:
    """The lines of a printed tree, read from the first on."""

    def __init__(self, lines: Sequence[str], number: int, prices: Mapping[str, int]) -> None:
        self.lines, self.first, self.prices = lines, number, prices
        self.at = 0

    def fault(self, what: str) -> Malformed:
        """What is wrong at the next line."""
        return Malformed(what, self.first + self.at)

    def next(self, indent: str, what: str) -> str:
        """The next line, which must be indented so, without its blanks."""
        if self.at == len(self.lines):
            raise self.fault(f'the text ends where {what} is expected')
        line = self.lines[self.at]
        if not line.startswith(indent) or line[len(indent):].startswith(' '):
            raise self.fault(f'{what} with {len(indent)} blanks before it is expected, and here is {line!r}')
        self.at += 1
        return line[len(indent):]

    def peek(self, indent: str, word: str) -> bool:
        """Whether the next line is indented so and begins with a word."""
        return self.at < len(self.lines) and self.lines[self.at].startswith(indent + word)

    def parsed(self, text: str) -> Tuple[Expression, ...]:
        """The expressions of the line that was read last."""
        try:
            return tuple(expressions(text))
        except Malformed as fault:
            raise Malformed(fault.what, self.first + self.at - 1) from None

    def body(self, indent: str) -> Tree:
        """The tree whose lines are indented so."""
        if len(indent) > 2 * DEPTH:
            raise self.fault(f'a plan is no deeper than {DEPTH}')
        line = self.next(indent, 'an action, a branch, cases or a leaf')
        acts: List[Tuple[Expression, ...]] = []
        while line.startswith('('):
            acts.append(self.act(line))
            line = self.next(indent, 'what follows an action')
        tree = self.end(line, indent)
        for act in reversed(acts):
            name = str(act[0])
            tree = Act(name, act[1:], tree, self.prices.get(name, 1))
        return tree

    def act(self, line: str) -> Tuple[Expression, ...]:
        """The action of a line."""
        parsed = self.parsed(line)
        act = parsed[0]
        if len(parsed) != 1 or isinstance(act, str) or not act or not isinstance(act[0], str):
            self.at -= 1
            raise self.fault(f'no action: {line!r}')
        return act

    def end(self, line: str, indent: str) -> Tree:
        """The leaf, the branch or the cases with which a row of actions ends."""
        if line == 'goal':
            return Goal()
        if line == 'impossible':
            return Impossible()
        if line.startswith('branch '):
            literals = self.parsed(line[len('branch '):])
            return Branch(literals, self.side('true', indent), self.side('false', indent))
        if line.startswith('cases '):
            return self.cases(line, indent)
        self.at -= 1
        raise self.fault(f'no line of a plan: {line!r}')

    def side(self, name: str, indent: str) -> Tree:
        """The side of a branch of this name."""
        if self.next(indent, f'`{name}`') != name:
            self.at -= 1
            raise self.fault(f'the side `{name}` of a branch is missing')
        return self.body(indent + '  ')

    def cases(self, line: str, indent: str) -> Tree:
        """The cases of a line, with their sides."""
        terms = self.parsed(line[len('cases '):])
        found = []
        while self.peek(indent, 'case '):
            value = self.next(indent, 'a case')[len('case '):]
            found.append((value, self.body(indent + '  ')))
        if len(terms) != 1 or not found:
            raise self.fault('cases have one term and a side for each value')
        return Cases(terms[0], tuple(found))


def read_body(lines: Sequence[str], number: int = 1, prices: Optional[Mapping[str, int]] = None) -> Tree:
    """The tree of the lines behind `plan depth D`, the first of which has this number.

    Malformed, with the line, where they aren't one tree. `prices` are the costs of the actions by their names.
    """
    reader = _Lines(lines, number, prices or {})
    tree = reader.body('')
    if reader.at != len(lines):
        raise reader.fault(f'the plan has ended, and here is {lines[reader.at]!r}')
    return tree


OTHERS = ((r'\(pks\b', 'a file for the planner'), (r'run$', 'a run, as `exec` prints it'),
          (r'plan depth \d+ nodes ', 'a plan with equal parts once, as `shared` prints it'),
          (r'none to depth ', 'no plan'), (r'refused ', 'a refusal'),
          (r'(?:do|value|test) \(', 'a dialogue, as `agent` prints it'))
"""What is written and printed besides plans, by how it begins."""


def need_no_other(text: str) -> None:
    """Malformed, with the line, where the first line that is neither blank nor a comment is none of a plan but of OTHERS."""
    lines = ((line.split(';')[0].strip(), number) for number, line in enumerate(text.splitlines(), 1))
    begun, at = next(((line, number) for line, number in lines if line), ('', 1))
    for pattern, kind in OTHERS:
        if re.match(pattern, begun):
            raise Malformed(f'this is {kind}, and here a plan is wanted, as `./pks plan` prints it', at)


def read_plan(text: str, prices: Optional[Mapping[str, int]] = None) -> Tree:
    """The tree that `plan` prints; Malformed, with the line, where the text isn't one.

    `prices` are the costs of the actions by their names, as `costs` gives them.
    """
    need_no_other(text)
    lines = text.splitlines()
    if not lines or not lines[0].startswith('plan depth ') or len(lines[0].split()) != 3:
        raise Malformed('no plan: its first line is `plan depth D`')
    tree = read_body(lines[1:], 2, prices)
    if lines[0].split()[2] != str(tree.depth):
        raise Malformed(f'the plan has depth {tree.depth}, and the first line says {lines[0].split()[2]}')
    return tree


# Printing

def _printed(tree: Tree, indent: str) -> Iterator[str]:
    while isinstance(tree, Act):
        yield indent + tree.text()
        tree = tree.next
    if isinstance(tree, Goal):
        yield indent + 'goal'
    elif isinstance(tree, Impossible):
        yield indent + 'impossible'
    else:
        yield indent + ('branch ' if isinstance(tree, Branch) else 'cases ') + tree.text()
        for name, child in sides(tree):
            yield indent + (name if isinstance(tree, Branch) else f'case {name}')
            yield from _printed(child, indent + '  ')


def printed(tree: Tree) -> str:
    """The tree as `plan` prints it."""
    return '\n'.join([f'plan depth {tree.depth}', *_printed(tree, '')]) + '\n'
