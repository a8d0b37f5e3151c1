"""What the program and the second planner print of one file, compared byte by byte."""

import os
import random
import re
import tempfile
from dataclasses import dataclass, field
from typing import Callable, Dict, List, Optional, Tuple

import pkslib
from pkslib import Expression, expressions, written

from .adds import case_of, derived_adds
from .closing import TooMuch
from .generator import Maker, text_of
from .problems import Action, Add, Item, Names, Problem, Query, read_problem
from .search import Planner, Tree, plan_text, recall_text
from .terms import Conjunction
from .worlds import compatible_worlds, judge

SECONDS = 60
"""The time that a call of the program may take."""


@dataclass
class Limits:
    """What the judge does for one file: states of the search, and worlds that are tried."""

    states: int = 250
    worlds: int = 1024


@dataclass
class Counts:
    """What was compared, and what was found."""

    files: int = 0
    refused: int = 0
    texts: int = 0
    plans: int = 0
    skipped: int = 0
    runs: int = 0
    faults: List[str] = field(default_factory=list)

    def summary(self) -> str:
        """A line on all of it."""
        return (f'{self.files} files, {self.refused} refused, {self.texts} texts with {self.plans} plans compared, '
                f'{self.runs} plans tried in all worlds, {self.skipped} depths skipped, {len(self.faults)} faults')


# ---- spelling of adds (FORMAT 6, `derive`)

def spelled_query(names: Names, query: Query) -> Expression:
    """A query as it stands in a file."""
    if query.kind == 'kv':
        return ('kv', names.spelled(query.what))
    literals: Conjunction = (query.what,) if query.kind == 'k' else query.what
    return (query.kind, *map(names.spelled_literal, literals))


def spelled_item(names: Names, item: Item) -> Expression:
    """An item as it stands in a file."""
    if item.kind == 'lcw':
        return (item.kind, names.spelled_pattern(item.what))
    return spelled_query(names, Query('kv', item.what)) if item.kind == 'kv' else (
        item.kind, *map(names.spelled_literal, (item.what,) if item.kind == 'kf' else item.what))


def spelled_add(names: Names, add: Add) -> Expression:
    """An add as it stands in a file."""
    item = spelled_item(names, add.item)
    return ('if', tuple(spelled_query(names, query) for query in add.given), item) if add.given else item


def derive_text(problem: Problem) -> str:
    """What `derive` prints."""
    lines = []
    for action in problem.actions:
        problem.names.kinds['parameter'] = list(action.parameters)
        lines += [f'action {action.name}', *(written(spelled_add(problem.names, add)) for add in derived_adds(action))]
    return ''.join(f'{line}\n' for line in lines)


def first_without_case(problem: Problem) -> Optional[Tuple[Action, int]]:
    """The first add without a case: its action, and its number from 1."""
    return next(((action, number) for action in problem.actions for number, add in enumerate(action.adds, 1)
                 if case_of(action, add) is None), None)


# ---- one file

ATTEMPTS = 12
"""How many files are made for one number at most."""


@dataclass
class Made:
    """A file that was made: its text without adds, what `derive` prints of that, its text, and its planner."""

    bare: str
    derived: str
    text: str
    depth: int
    problem: Problem
    planner: Planner

    def is_wanted(self, kind: int) -> bool:
        """Whether it is of a kind: any; one whose goal isn't met at the start; a plan of two steps; and it parts."""
        start = self.planner.start
        if kind == 0:
            return True
        if start.history is None or first_without_case(self.problem) is not None:
            return False
        try:
            trees = [self.planner.best(start, depth) for depth in ((0,) if kind == 1 else (0, 1, self.depth))]
        except TooMuch:
            return False
        if kind == 1 or trees[0] or trees[1]:
            return trees == [None]
        return trees[2] is not None and (kind == 2 or parts(trees[2]))


def parts(tree: Tree) -> bool:
    """Whether a tree has a branch or cases."""
    return len(tree.children) > 1 or any(map(parts, tree.children))


class Comparison:
    """Compares files, and keeps those of which something differs in a folder of their own."""

    def __init__(self, program: str, limits: Optional[Limits] = None,
                 maker: Callable[[random.Random], Maker] = Maker, tool: str = 'plan-generated') -> None:
        self.program = program
        self.tool = tool
        self.limits = limits or Limits()
        self.maker = maker
        self.counts = Counts()
        self.folder = ''

    def ask(self, words: List[str], text: str) -> str:
        """What the program prints."""
        return pkslib.call(words, text, SECONDS, self.program).text

    def is_same(self, name: str, words: List[str], text: str, expected: str) -> bool:
        """Whether the program prints what is expected; a fault is noted where it doesn't."""
        self.counts.texts += 1
        printed = self.ask(words, text)
        if printed != expected:
            self.fault(name, text, f'`{" ".join(words)}` prints\n{printed}and by the rules it is\n{expected}')
        return printed == expected

    def fault(self, name: str, text: str, what: str) -> None:
        """Notes a fault, and keeps the file."""
        self.counts.faults.append(f'{self.kept(name, text)}: {what}')

    def kept(self, name: str, text: str) -> str:
        """The path of a file that is kept."""
        self.folder = self.folder or tempfile.mkdtemp(prefix=f'pks-{self.tool}-')
        path = os.path.join(self.folder, f'{name}.pks')
        with open(path, 'w', encoding='ascii') as file:
            file.write(text)
        return path

    def file(self, number: int) -> None:
        """Makes the file of a number, and compares all that is printed of it."""
        self.counts.files += 1
        made = self.made(number)
        name = f'file-{number}'
        if made.planner.start.history is None:
            self.is_clash(name, made.bare)
        elif self.is_same(name, ['derive'], made.bare, made.derived):
            self.with_adds(name, made)

    def made(self, number: int) -> 'Made':
        """The first file of a number's that is of the kind that is wanted, or the last that is tried."""
        for attempt in range(ATTEMPTS):
            made = self.attempt(number, attempt)
            if made.is_wanted(number % 4):
                break
        return made

    def attempt(self, number: int, attempt: int) -> 'Made':
        """One file of a number's."""
        maker = self.maker(random.Random(f'{number}/{attempt}'))
        forms = maker.forms()
        bare = text_of(forms)
        derived = derive_text(read_problem(bare))
        text = text_of(forms, self.adds(maker, forms, derived))
        problem = read_problem(text)
        return Made(bare, derived, text, maker.depth, problem, Planner(problem, self.limits.states))

    def adds(self, maker: Maker, forms: List[Expression], derived: str) -> Dict[str, List[Expression]]:
        """The adds of each action: those that are derived of it, and sometimes others, or what the maker leaves of them."""
        found: Dict[str, List[Expression]] = {}
        name = ''
        for line in derived.splitlines():
            if line.startswith('action '):
                name = line[len('action '):]
                found[name] = []
            else:
                found[name] += expressions(line)
        for part in forms[1]:
            if part[0] == 'action' and maker.may(0.5):
                found[str(part[1])] += maker.other_adds(part)
        return {name: maker.own_adds(adds) for name, adds in found.items()}

    def is_clash(self, name: str, text: str) -> None:
        """Notes a fault where a file whose start clashes isn't refused."""
        self.counts.refused += 1
        self.counts.texts += 1
        printed = self.ask(['check'], text)
        if not re.fullmatch(r'refused \d+:\d+ 270\n', printed):
            self.fault(name, text, f'`check` prints\n{printed}and by the rules the initial databases clash\n')

    def with_adds(self, name: str, made: 'Made') -> None:
        """Compares what is printed of a file with its adds."""
        unjustified = first_without_case(made.problem)
        if unjustified is None:
            self.plans(name, made.text, made.planner, made.depth)
            return
        self.counts.refused += 1
        self.counts.texts += 1
        tail = f' 260 action {unjustified[0].name} effect {unjustified[1]}\n'
        printed = self.ask(['check'], made.text)
        if not re.fullmatch(r'refused \d+:\d+' + re.escape(tail), printed):
            self.fault(name, made.text, f'`check` prints\n{printed}and by the rules it is\nrefused LINE:COLUMN{tail}')

    def plans(self, name: str, text: str, planner: Planner, depth: int) -> None:
        """Compares the plans to all depths up to this one, and what the last one recalls."""
        last: Optional[Tree] = None
        for to in range(1, depth + 1):
            try:
                last = planner.best(planner.start, to)
            except TooMuch:
                self.counts.skipped += depth + 1 - to
                depth = to - 1
                break
            if not self.is_same(name, ['plan', str(to)], text, plan_text(planner.problem, last, to)):
                return
            self.counts.plans += last is not None
        if depth and last is not None:
            self.recalled(name, text, planner, last, depth)

    def recalled(self, name: str, text: str, planner: Planner, tree: Tree, depth: int) -> None:
        """Compares what a plan recalls, and tries the plan in all worlds."""
        expected = plan_text(planner.problem, tree, depth) + recall_text(planner, tree)
        if not self.is_same(name, ['recall', str(depth)], text, expected):
            return
        worlds = compatible_worlds(planner.problem, self.limits.worlds)
        if worlds is not None:
            self.counts.runs += 1
            wrong = judge(planner.problem, pkslib.read_recalled(expected), worlds)
            if wrong is not None:
                self.fault(name, text, f'the plan to depth {depth} is wrong: {wrong}\n{expected}')
