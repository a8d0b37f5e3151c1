"""The file that is made for a question along a way: each step is an action of its own, and a place counts them.

No rule of knowledge stands here. A step keeps the text of its action; it can be done only where the place has the
number before it and its parameters are its arguments. At the end of the way stand actions that tell the answers: for
each query an effect `(set (SAID N))`, told where the query is answered. On a side that isn't followed an action leads
to the goal at once. So all that is left to the program is to go the way, and it goes it where it can.
"""

from dataclasses import dataclass, field, replace
from typing import List, Sequence, Tuple, Union

from asklib.files import Action, File, List_, negated
from pkslib import Expression, limits


@dataclass(frozen=True)
class Step:
    """An action with its arguments, and what follows."""

    name: str
    arguments: Tuple[Expression, ...]
    next: 'Question'


@dataclass(frozen=True)
class Fork:
    """A branch or cases: what is tested, and for each side the queries that are answered there and not before."""

    tested: List_
    sides: 'Tuple[Tuple[List_, Question], ...]'
    """Queries with what follows, the side that is followed among them."""


@dataclass(frozen=True)
class Asked:
    """The end of the way that is followed, where queries are asked."""

    queries: Tuple[Expression, ...] = ()


@dataclass(frozen=True)
class Left:
    """An end at which nothing is asked; it may have a parameter, with queries of its own."""

    params: List_ = ()
    queries: List_ = ()


@dataclass(frozen=True)
class Closed:
    """A side to which no run comes."""


Question = Union[Step, Fork, Asked, Left, Closed]
"""What is asked: a tree."""


Answer = Tuple[Expression, Expression]
"""An effect, and the add that tells it."""


class TooMany(Exception):
    """The file that a question needs passes a limit; the text says which."""


PER_ACTION = limits.EFFECTS - 1
"""How many answers an action tells; one effect more counts it."""


def depth(question: Question) -> int:
    """The depth of the plan that answers a question."""
    if isinstance(question, Step):
        return 1 + depth(question.next)
    if isinstance(question, Fork):
        return 1 + max(depth(child) for _, child in question.sides)
    if isinstance(question, Asked):
        return max(1, -(-len(question.queries) // PER_ACTION))
    return 0 if isinstance(question, Closed) else 1


def branched(literals: List_, opened: List_, true: Question, false: Question) -> Question:
    """A branch on a conjunction of which these literals aren't known."""
    denied = ('k', negated(opened[0])) if len(opened) == 1 else ('not-derived', ('kw', *literals))
    return Fork(literals, ((tuple(('k', literal) for literal in opened), true), ((denied,), false)))


def taken_apart(opened: List_, true: Question) -> Question:
    """The true side of a conjunction, each of whose unknown literals is known whether by itself: one after another."""
    for literal in reversed(opened):
        true = branched((literal,), (literal,), true, Left())
    return true


def chosen(term: Expression, kind: str, value: str, child: Question) -> Question:
    """Cases of a term of a type, of which one is followed."""
    other = Left((('?other', kind),), (('k', ('=', term, '?other')), ('k', ('not', ('=', '?other', value)))))
    return Fork((term,), (((('k', ('=', term, value)),), child), ((), other)))


class Names:
    """Names that the file doesn't have, for what is added to it."""

    def __init__(self, file: File) -> None:
        taken = [*file.parents, *file.kinds, *file.arguments]
        self.kind = next(word for word in ('step', *(f'step{n}' for n in range(len(taken) + 1)))
                         if not any(name.startswith(word) for name in taken))
        """The type of the numbers."""
        self.now, self.said, self.end = f'{self.kind}-now', f'{self.kind}-said', f'{self.kind}-end'
        """The place that counts, the predicate that answers, and the number that stands for the end."""

    def number(self, n: int) -> str:
        """An object that is a number."""
        return f'{self.kind}-{n}'

    def is_question(self, action: str) -> bool:
        """Whether an action is one that tells answers."""
        return action.startswith(f'{self.kind}-ask-')

    def is_own(self, text: str) -> bool:
        """Whether a printed literal speaks of what was added."""
        return f'({self.now})' in text or f'({self.said} ' in text


@dataclass
class Stages:
    """The actions that are made of a question."""

    file: File
    names: Names
    actions: List[Action] = field(default_factory=list)
    last: int = 0
    """The last number that the place has had."""
    greatest: int = 0
    """The greatest number that is used."""

    def number(self, n: int) -> str:
        """A number, which is then used."""
        self.greatest = max(self.greatest, n)
        return self.names.number(n)

    def after(self) -> str:
        """A further number for the place."""
        self.last += 1
        return self.number(self.last)

    def at(self, number: str) -> Expression:
        """The literal that the place has a number."""
        return ('=', (self.names.now,), number)

    def put(self, question: Question, number: str, conditions: List_ = ()) -> None:
        """Adds the actions of what is asked behind a number, on a side where these queries are answered."""
        if isinstance(question, Step):
            self.put(question.next, self.put_step(question, number, conditions))
        elif isinstance(question, Fork):
            for own, child in question.sides:
                self.put(child, number, conditions + own)
        elif isinstance(question, Asked):
            self.put_asked(question.queries, number, conditions)
        elif isinstance(question, Left):
            end = (('set', self.end()), ('kf', self.end()))
            self.put_answers('leave', [end], number, conditions + question.queries, question.params)

    def put_step(self, step: Step, number: str, conditions: List_) -> str:
        """Adds the action of a step, and gives the number behind it."""
        own, after = self.file.action(step.name), self.after()
        assert own is not None
        given = tuple(('k', ('=', name, term)) for name, term in zip(own.parameters, step.arguments))
        self.put_action(replace(own, name=self.name('do'),
                                pre=(('k', self.at(number)), *given, *conditions, *own.pre),
                                effects=(*own.effects, ('assign', (self.names.now,), after)),
                                knows=(*own.knows, ('kf', self.at(after)))))
        return after

    def name(self, what: str) -> str:
        """The name of the next action."""
        return f'{self.names.kind}-{what}-{len(self.actions)}'

    def put_action(self, action: Action) -> None:
        """Adds an action; TooMany where it passes a limit."""
        for what, parts, most in (('preconditions', action.pre, limits.PRECONDITIONS),
                                  ('effects', action.effects, limits.EFFECTS), ('adds', action.knows, limits.ADDS)):
            if len(parts) > most:
                raise TooMany(f'with what is added for a question, an action has more than {most} {what}')
        self.actions.append(action)

    def put_asked(self, queries: List_, number: str, conditions: List_) -> None:
        """Adds the actions that tell the answers of queries, the last of which leads to the goal."""
        for at in range(0, max(1, len(queries)), PER_ACTION):
            own = queries[at:at + PER_ACTION]
            tells = [(self.names.said, self.number(at + n)) for n in range(len(own))]
            answers: List[Answer] = [(('set', tell), ('if', (query,), ('kf', tell))) for query, tell in zip(own, tells)]
            after = self.after()
            if at + PER_ACTION >= len(queries):
                answers.append((('set', self.end()), ('kf', self.end())))
            else:
                answers.append((('assign', (self.names.now,), after), ('kf', self.at(after))))
            self.put_answers('ask', answers, number, conditions)
            number, conditions = after, ()

    def end(self) -> Expression:
        """The atom that is the goal."""
        return (self.names.said, self.names.end)

    def put_answers(self, what: str, answers: Sequence[Answer], number: str,
                    conditions: List_, params: List_ = ()) -> None:
        """Adds an action of effects and what is told of each."""
        self.put_action(Action(self.name(what), params=params, pre=(('k', self.at(number)), *conditions),
                               effects=tuple(effect for effect, _ in answers),
                               knows=tuple(told for _, told in answers)))


def staged(file: File, names: Names, question: Question, goal: List_ = ()) -> File:
    """The file that asks a question; TooMany where it passes a limit. At each end the goal is asked too."""
    stages = Stages(file, names)
    stages.put(question, names.number(0))
    numbers = (*(names.number(n) for n in range(stages.greatest + 1)), names.end)
    made = replace(
        file, version=2 if len(file.kinds) + len(numbers) > limits.OBJECTS[1] else file.version,
        types=(*file.types, names.kind), objects=(*file.objects, (names.kind, *numbers)),
        predicates=(*file.predicates, (names.said, names.kind)),
        functions=(*file.functions, (names.now, names.kind)), actions=tuple(stages.actions),
        init=(*file.init, ('kf', stages.at(names.number(0)))), goal=(*goal, ('k', stages.end())))
    need_room(made)
    return made


def need_room(file: File) -> None:
    """TooMany where a file has more of something than a file may have."""
    for what, count, most in (('types', len(file.types), limits.TYPES),
                              ('predicates', len(file.predicates), limits.PREDICATES),
                              ('functions', len(file.functions), limits.FUNCTIONS),
                              ('actions', len(file.actions), limits.ACTIONS),
                              ('objects', len(file.kinds), limits.OBJECTS[2]), ('aims', len(file.goal), limits.GOALS)):
        if count > most:
            raise TooMany(f'with what is added for a question, the file has more than {most} {what}')
