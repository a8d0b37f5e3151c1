"""Derived trees, and the best one to a depth (RULES 15); what each leaf knows (RULES 16)."""

from dataclasses import dataclass
from typing import Dict, Iterator, List, Optional, Tuple

import pkslib

from .choices import Choice, assume_truth, assume_value, choices
from .closing import Closer, TooMuch
from .interference import Interference
from .lookup import Database, initial
from .problems import Names, Problem
from .progression import Instance, progress, put_in
from .queries import is_met
from .settling import History, settle


@dataclass(frozen=True)
class Tree:
    """A plan: a leaf, `goal` or `impossible`, or a choice with the trees below."""

    leaf: str
    choice: Optional[Choice]
    cost: int
    children: 'Tuple[Tree, ...]' = ()


GOAL, IMPOSSIBLE = Tree('goal', None, 0), Tree('impossible', None, 0)


class State:
    """A state of the search: a history, or a clash."""

    def __init__(self, history: Optional[History]) -> None:
        self.history = history
        self.best: Dict[int, Optional[Tree]] = {}
        self.below: Dict[Choice, 'Tuple[State, ...]'] = {}
        self.choices: Optional[List[Choice]] = None


class Planner:
    """Finds the best tree of one problem; TooMuch where that takes more than so many states."""

    def __init__(self, problem: Problem, limit: int) -> None:
        self.problem, self.limit = problem, limit
        self.closer = Closer(problem.signature)
        self._acting: Dict[Tuple[Database, Instance], Interference] = {}
        self._states: Dict[History, State] = {}
        self._clash = State(None)
        base = self.closer.close(initial(problem))
        self.start = self._state(None if base is None else History((base,), ()))

    def _state(self, history: Optional[History]) -> State:
        if history is None:
            return self._clash
        if history not in self._states:
            if len(self._states) >= self.limit:
                raise TooMuch
            self._states[history] = State(history)
        return self._states[history]

    def act(self, base: Database, instance: Instance) -> Interference:
        """An instance read in the databases before it."""
        if (base, instance) not in self._acting:
            action = self.problem.actions[instance[0]]
            self._acting[base, instance] = Interference(base, put_in(action, instance[1]))
        return self._acting[base, instance]

    # ---- the states below a state

    def below(self, state: State, choice: Choice) -> 'Tuple[State, ...]':
        """The states to which a choice leads, in the order of its children."""
        if choice not in state.below:
            state.below[choice] = tuple(self._children(state, choice))
        return state.below[choice]

    def _children(self, state: State, choice: Choice) -> Iterator[State]:
        assert state.history is not None
        if choice.kind == 'act':
            yield self._after(state.history, (choice.what[0], choice.what[1]))
        elif choice.kind == 'branch':
            for truth in (True, False):
                yield self._settled(state.history, assume_truth(
                    self.closer, state.history.moments[-1], choice.what, truth))
        else:
            for thing in choice.objects:
                yield self._settled(state.history, assume_value(
                    self.closer, state.history.moments[-1], choice.what, thing))

    def _after(self, history: History, instance: Instance) -> State:
        """The history longer by the progressed databases, or their clash."""
        number, arguments = instance
        acting = self.act(history.moments[-1], instance)
        base = progress(self.closer, self.problem.actions[number], acting, arguments)
        if base is None:
            return self._clash
        return self._state(History(history.moments + (base,), history.steps + (instance,)))

    def _settled(self, history: History, assumed: Optional[Database]) -> State:
        """The history settled with the databases assumed standing last, or its clash."""
        if assumed is None:
            return self._clash
        return self._state(settle(self.closer, self.act, History(history.moments[:-1] + (assumed,), history.steps)))

    # ---- the best tree

    def best(self, state: State, depth: int) -> Optional[Tree]:
        """The best tree that is derived at a state and no deeper, or None."""
        if depth not in state.best:
            state.best[depth] = self._best(state, depth)
        return state.best[depth]

    def _best(self, state: State, depth: int) -> Optional[Tree]:
        if state.history is None:
            return IMPOSSIBLE
        if all(is_met(state.history.moments, aim) for aim in self.problem.aims):
            return GOAL
        if depth == 0:
            return None
        found = self.best(state, depth - 1)
        if found is not None and found.cost < depth:
            return found  # a tree costs its depth at least
        return self._best_choice(state, depth)

    def _best_choice(self, state: State, depth: int) -> Optional[Tree]:
        """The best tree with a choice at its root: the cheapest, and of those the first in order."""
        assert state.history is not None
        if state.choices is None:
            state.choices = list(choices(self.problem, state.history.moments[-1]))
        found: Optional[Tree] = None
        for choice in state.choices:
            price = self.problem.actions[choice.what[0]].cost if choice.kind == 'act' else 1
            if found is None or price < found.cost:
                tree = self._with_root(state, choice, price, depth)
                if tree is not None and (found is None or tree.cost < found.cost):
                    found = tree
        return found

    def _with_root(self, state: State, choice: Choice, price: int, depth: int) -> Optional[Tree]:
        """The best tree with this root: each child is the best one to a depth less."""
        children: List[Tree] = []
        for child in self.below(state, choice):
            tree = self.best(child, depth - 1)
            if tree is None:
                return None
            children.append(tree)
        return Tree('', choice, price + max(child.cost for child in children), tuple(children))

    # ---- what each leaf knows

    def leaves(self, state: State, tree: Tree) -> Iterator[State]:
        """The states at the leaves of a derived tree, from left to right."""
        if tree.choice is None:
            yield state
        else:
            for child, below in zip(tree.children, self.below(state, tree.choice)):
                yield from self.leaves(below, child)


# ---- texts (FORMAT 6)

def spelled(problem: Problem, tree: Tree) -> pkslib.Tree:
    """The tree in the words of the file."""
    names, choice = problem.names, tree.choice
    if choice is None:
        return pkslib.Goal() if tree.leaf == 'goal' else pkslib.Impossible()
    below = [spelled(problem, child) for child in tree.children]
    if choice.kind == 'act':
        action = problem.actions[choice.what[0]]
        return pkslib.Act(action.name, tuple(map(names.spelled, choice.what[1])), below[0], action.cost)
    if choice.kind == 'branch':
        return pkslib.Branch(tuple(map(names.spelled_literal, choice.what)), below[0], below[1])
    return pkslib.Cases(names.spelled(choice.what), tuple(
        (str(names.spelled(thing)), child) for thing, child in zip(choice.objects, below)))


def plan_text(problem: Problem, tree: Optional[Tree], depth: int) -> str:
    """What `plan` prints."""
    return f'none to depth {depth}\n' if tree is None else pkslib.printed(spelled(problem, tree))


def leaf_lines(names: Names, history: Optional[History]) -> Iterator[str]:
    """What `recall` prints of a leaf."""
    if history is None:
        yield 'impossible'
        return
    for number, base in enumerate(history.moments):
        yield f'moment {number}'
        yield from (pkslib.written(names.spelled_literal(literal)) for literal in sorted(base.five.kf))


def recall_text(planner: Planner, tree: Tree) -> str:
    """What `recall` prints behind the tree."""
    lines: List[str] = []
    for number, state in enumerate(planner.leaves(planner.start, tree), 1):
        lines += [f'leaf {number}', *leaf_lines(planner.problem.names, state.history)]
    return ''.join(f'{line}\n' for line in lines)
