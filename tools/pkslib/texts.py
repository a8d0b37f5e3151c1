"""The reader of printed texts other than plans: runs, what is recalled, explanations, plans with equal parts once."""

import re
from dataclasses import dataclass
from typing import List, Mapping, Optional, Sequence, Tuple, Union

from .forms import Expression, Malformed, expressions, written
from .trees import Act, Branch, Cases, Goal, Impossible, Literal, Term, Tree, read_plan


@dataclass(frozen=True)
class Do:
    """An action is done, in a run; or is to be done, in a dialogue."""

    name: str
    arguments: Tuple[str, ...]


@dataclass(frozen=True)
class Whether:
    """An action senses whether all of these literals are true."""

    literals: Tuple[Literal, ...]
    holds: bool


@dataclass(frozen=True)
class Value:
    """An action senses a value."""

    term: Term
    value: str


@dataclass(frozen=True)
class Instances:
    """An action senses all true instances of a pattern."""

    pattern: Expression
    atoms: Tuple[Expression, ...]


@dataclass(frozen=True)
class Branched:
    """A branch goes to the side of its literals' truth."""

    literals: Tuple[Literal, ...]
    holds: bool


@dataclass(frozen=True)
class Cased:
    """Cases go to the side of a value."""

    term: Term
    value: str


Event = Union[Do, Whether, Value, Instances, Branched, Cased]
"""What happens in a run."""


@dataclass(frozen=True)
class Run:
    """A run: its events, and its end, which is `goal`, `impossible` or `no case`."""

    events: Tuple[Event, ...]
    end: str


Moment = Tuple[Literal, ...]
"""What is known of a moment, in order."""


@dataclass(frozen=True)
class Recalled:
    """A plan, and for each of its leaves what is known there of every moment; None at an impossible one."""

    tree: Tree
    leaves: Tuple[Optional[Tuple[Moment, ...]], ...]


@dataclass(frozen=True)
class ProofLine:
    """A line of a proof: at a moment a fact is known for a reason, by the lines that it cites."""

    number: int
    moment: int
    fact: Expression
    reason: str
    told: Optional[int]
    """The number behind `given` and `side`."""
    cites: Tuple[int, ...]


@dataclass(frozen=True)
class Entry:
    """A literal that a plan rests on, and a proof that it is known there."""

    literal: Literal
    proof: Tuple[ProofLine, ...]


@dataclass(frozen=True)
class Explained:
    """A plan, and an entry for each literal that it owes, in the order in which it is printed."""

    tree: Tree
    entries: Tuple[Entry, ...]


@dataclass(frozen=True)
class Shared:
    """A plan whose equal parts stand once: its subtrees, children before parents, the last being the plan."""

    nodes: Tuple[Tree, ...]

    @property
    def tree(self) -> Tree:
        """The whole plan."""
        return self.nodes[-1]


Printed = Union[Tree, Shared, Run, Recalled, Explained]
"""What a printed text says."""

ENDS = ('goal', 'impossible', 'no case')
"""How a run and a dialogue end."""


def _parsed(text: str, number: int) -> Tuple[Expression, ...]:
    try:
        return tuple(expressions(text))
    except Malformed as fault:
        raise Malformed(fault.what, number) from None


def _word(expression: Expression, number: int) -> str:
    if not isinstance(expression, str):
        raise Malformed('a name is expected, and not a list', number)
    return expression


# Runs

def read_act(text: str, number: int = 1) -> Do:
    """An action with objects, as `(go hall)`; Malformed, with `number` as its line, where the text isn't one."""
    parts = _parsed(text, number)
    if len(parts) != 1 or isinstance(parts[0], str) or not parts[0]:
        raise Malformed(f'no action: {text!r}', number)
    name, *arguments = (_word(part, number) for part in parts[0])
    return Do(name, tuple(arguments))


def _event(line: str, number: int) -> Event:
    word, _, rest = line.partition(' ')
    if word == 'do':
        return read_act(rest, number)
    parts = _parsed(rest, number)
    if word in ('whether', 'branch') and len(parts) > 1 and parts[-1] in ('true', 'false'):
        holds = parts[-1] == 'true'
        return Whether(parts[:-1], holds) if word == 'whether' else Branched(parts[:-1], holds)
    if word in ('value', 'case') and len(parts) == 2:
        value = _word(parts[1], number)
        return Value(parts[0], value) if word == 'value' else Cased(parts[0], value)
    if word == 'all' and parts:
        return Instances(parts[0], parts[1:])
    raise Malformed(f'no line of a run: {line!r}', number)


def _conjunction(literals: Sequence[Literal]) -> str:
    return ' '.join(map(written, literals))


def line_of(event: Event) -> str:
    """An event as it is printed."""
    if isinstance(event, Do):
        return f'do {written((event.name, *event.arguments))}'
    if isinstance(event, (Whether, Branched)):
        word = 'whether' if isinstance(event, Whether) else 'branch'
        return f'{word} {_conjunction(event.literals)} {"true" if event.holds else "false"}'
    if isinstance(event, Instances):
        return _conjunction(('all', event.pattern, *event.atoms))
    return f'{"value" if isinstance(event, Value) else "case"} {written(event.term)} {event.value}'


def read_run(text: str) -> Run:
    """The run that `exec` prints; Malformed, with the line, where the text isn't one."""
    lines = text.splitlines()
    if not lines or lines[0] != 'run':
        raise Malformed('no run: its first line is `run`')
    if lines[-1] not in ENDS:
        raise Malformed('the text ends within the run', len(lines))
    return Run(tuple(_event(line, n) for n, line in enumerate(lines[1:-1], 2)), lines[-1])


# What is behind a plan

def _behind_plan(text: str, word: str, prices: Optional[Mapping[str, int]]) -> Tuple[Tree, List[str], int]:
    """The plan before the first line that begins with a word, the lines from there, and the number of the first."""
    lines = text.splitlines()
    first = next((n for n, line in enumerate(lines) if line.startswith(word)), len(lines))
    return read_plan('\n'.join(lines[:first]), prices), lines[first:], first + 1


def read_recalled(text: str, prices: Optional[Mapping[str, int]] = None) -> Recalled:
    """What `recall` prints; Malformed, with the line, where the text isn't that."""
    tree, lines, first = _behind_plan(text, 'leaf ', prices)
    leaves: List[Optional[List[List[Expression]]]] = []
    for number, line in enumerate(lines, first):
        last = leaves[-1] if leaves else None
        if line == f'leaf {len(leaves) + 1}':
            leaves.append([])
        elif line == 'impossible' and last == []:
            leaves[-1] = None
        elif last is not None and line == f'moment {len(last)}':
            last.append([])
        elif last:
            last[-1] += _parsed(line, number)
        else:
            raise Malformed(f'no line of what is recalled: {line!r}', number)
    if len(leaves) != len(tree.leaves):
        raise Malformed(f'the plan has {len(tree.leaves)} leaves, and here are {len(leaves)}', first)
    return Recalled(tree, tuple(None if leaf is None else tuple(map(tuple, leaf)) for leaf in leaves))


def read_proof_line(line: str, number: int = 1) -> ProofLine:
    """A line of a proof, spelled as it is printed; Malformed, with `number` as its line in the text, else."""
    named = re.fullmatch(r'(\d+) moment (\d+) (\(.*\)) ([a-z]+)( \d+)?( by((?: \d+)+))?', line)
    facts = _parsed(named[3], number) if named else ()
    if not named or len(facts) != 1:
        raise Malformed(f'no line of a proof: {line!r}', number)
    told = int(named[5]) if named[5] else None
    cites = tuple(int(cited) for cited in (named[7] or '').split())
    return ProofLine(int(named[1]), int(named[2]), facts[0], named[4], told, cites)


def read_explained(text: str, prices: Optional[Mapping[str, int]] = None) -> Explained:
    """What `explain` prints; Malformed, with the line, where the text isn't that."""
    tree, lines, first = _behind_plan(text, 'known ', prices)
    entries: List[Tuple[Literal, List[ProofLine]]] = []
    for number, line in enumerate(lines, first):
        if line.startswith('known '):
            literals = _parsed(line[len('known '):], number)
            if len(literals) != 1:
                raise Malformed('an entry is about one literal', number)
            entries.append((literals[0], []))
            continue
        proof = entries[-1][1]
        proof.append(read_proof_line(line, number))
        if proof[-1].number != len(proof):
            raise Malformed(f'line {len(proof)} of the proof is expected: {line!r}', number)
    return Explained(tree, tuple(Entry(literal, tuple(proof)) for literal, proof in entries))


# Plans whose equal parts stand once

class _Nodes:
    """The nodes of a plan, read one by one."""

    def __init__(self, prices: Mapping[str, int]) -> None:
        self.prices = prices
        self.nodes: List[Tree] = []

    def child(self, name: Expression, number: int) -> Tree:
        """The node of this number, which stands before."""
        if not (isinstance(name, str) and name.isdigit() and 1 <= int(name) <= len(self.nodes)):
            raise Malformed('a node names only nodes before it', number)
        return self.nodes[int(name) - 1]

    def node(self, parts: Sequence[Expression], number: int) -> Tree:
        """The node that a line tells."""
        if parts == ('goal',):
            return Goal()
        if parts == ('impossible',):
            return Impossible()
        if len(parts) > 5 and parts[0] == 'branch' and parts[-4] == 'true' and parts[-2] == 'false':
            return Branch(tuple(parts[1:-4]), self.child(parts[-3], number), self.child(parts[-1], number))
        if len(parts) > 3 and parts[0] == 'cases' and len(parts) % 2 == 0:
            named = zip(parts[2::2], parts[3::2])
            return Cases(parts[1], tuple((_word(v, number), self.child(c, number)) for v, c in named))
        if len(parts) == 3 and parts[1] == 'then' and isinstance(parts[0], tuple) and parts[0]:
            name = _word(parts[0][0], number)
            return Act(name, parts[0][1:], self.child(parts[2], number), self.prices.get(name, 1))
        raise Malformed('no node of a plan', number)


def read_shared(text: str, prices: Optional[Mapping[str, int]] = None) -> Shared:
    """What `shared` prints; Malformed, with the line, where the text isn't that."""
    lines = text.splitlines()
    if not lines or not re.fullmatch(r'plan depth \d+ nodes \d+', lines[0]):
        raise Malformed('no plan whose equal parts stand once: its first line is `plan depth D nodes N`')
    reader = _Nodes(prices or {})
    for at, line in enumerate(lines[1:], 2):
        number, *parts = _parsed(line, at) or ('',)
        if number != str(len(reader.nodes) + 1):
            raise Malformed(f'node {len(reader.nodes) + 1} is expected', at)
        reader.nodes.append(reader.node(tuple(parts), at))
    if lines[0].split()[4] != str(len(reader.nodes)):
        raise Malformed(f'the first line tells of {lines[0].split()[4]} nodes, and here are {len(reader.nodes)}')
    return Shared(tuple(reader.nodes))


def read_printed(text: str, prices: Optional[Mapping[str, int]] = None) -> Printed:
    """What a printed text says: a plan, a run, what is recalled, an explanation, or a plan with equal parts once.

    Malformed, with the line, where it is none of these. An explanation without entries reads as a plan.
    """
    first = text.split('\n', 1)[0]
    if first == 'run':
        return read_run(text)
    if ' nodes ' in first:
        return read_shared(text, prices)
    if re.search(r'^leaf ', text, re.M):
        return read_recalled(text, prices)
    if re.search(r'^known ', text, re.M):
        return read_explained(text, prices)
    return read_plan(text, prices)


def tree_of(said: Printed) -> Optional[Tree]:
    """The plan of a printed text; of a run None."""
    if isinstance(said, (Shared, Recalled, Explained)):
        return said.tree
    return None if isinstance(said, Run) else said
