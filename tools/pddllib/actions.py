"""The actions of a domain."""

import itertools
import math
from typing import Callable, Dict, Iterator, List, NoReturn, Optional, Sequence, Tuple

from . import limits
from .conditions import NeverTrue, Queries, Scope
from .declared import Declared
from .effects import Effects
from .text import Form, Refusal

OBSERVATIONS = (':observe', ':sense', ':sensing', ':observation', ':sensed')
MOST_ACTIONS = 8
PARTS = (':parameters', ':precondition', ':effect') + OBSERVATIONS
UNSAID = {
    ':derived': ('derived predicates can\'t be said',
                 'Let each action set what follows from its effects.'),
    ':axiom': ('axioms can\'t be said', 'Let each action set what follows from its effects.'),
    ':durative-action': ('durations can\'t be said', 'Write an `:action`, which takes one step.'),
    ':process': ('processes can\'t be said', 'Write an `:action`, which takes one step.'),
    ':event': ('events can\'t be said', 'Let each action do what follows from its effects.'),
    ':sensor': ('sensors that tell by themselves can\'t be said',
                'Write an `:action` with `:observe`, or add `:observe` to other actions.'),
    ':constraints': ('constraints aren\'t read',
                     'Write `(always ..)` or `(once ..)` into the goal of what is translated.'),
}
SECTIONS = (':requirements', ':types', ':constants', ':predicates', ':functions',
            ':object-fluents', ':action')

Fixing = Dict[str, str]
"""Parameters with the objects that stand for them."""


class Action:
    """An action, in the words of the planner's format."""

    def __init__(self, form: Form, declared: Declared, name: str, fixed: Optional[Fixing] = None,
                 picks: Sequence[int] = ()) -> None:
        """`fixed` are parameters for which an object stands; `picks` says which alternative is taken of each condition
        that has several, and of each cost that hangs on arguments."""
        self.form, self.comments, self.remarks = form, form.comments, []
        self.name, self.fixed = name, fixed or {}
        parts = self.parts_of(form)
        self.parameters, scope = self.read_parameters(parts.get(':parameters'), declared, self.fixed)
        self.queries = Queries('precondition', picks)
        if ':precondition' in parts:
            self.queries.read(parts[':precondition'], scope)
        self.parameters.update(self.queries.parameters)
        self.did = Effects(declared, picks[len(self.queries.counts):])
        if ':effect' in parts:
            self.did.read(parts[':effect'], scope)
        for word in OBSERVATIONS:
            if word in parts:
                self.did.observe(parts[word], scope)
        for literal in self.did.where:
            self.queries.literal(literal)
        self.effects, self.senses = self.did.in_order(), self.did.senses
        self.check()

    @staticmethod
    def parts_of(form: Form) -> Dict[str, Form]:
        """The parts of an action by their keywords."""
        if len(form.parts) < 2 or form.parts[1].is_list():
            raise Refusal(form, 'an action has a name', 'Write `(:action NAME ..)`.')
        found, rest = {}, form.parts[2:]
        for at, word in enumerate(rest):
            if at % 2 == 0 and at > 0 and word.is_list():
                refuse_second(rest[at - 2], rest[at - 1], word)
        for word, part in zip(rest[::2], rest[1::2]):
            if word.word not in PARTS:
                raise Refusal(word, f'an action can\'t have `{word.text()}`',
                              'It has `:parameters`, `:precondition`, `:effect` and `:observe`.')
            if word.word in found:
                raise Refusal(word, f'`{word.raw}` stands twice', 'Put both into one.')
            found[word.word] = part
        if len(rest) % 2:
            raise Refusal(rest[-1], 'something is missing behind this', 'Write `()` for nothing.')
        return found

    @staticmethod
    def read_parameters(form: Optional[Form], declared: Declared, fixed: Fixing) -> Tuple[Dict[str, str], Scope]:
        """The parameters with their types, but for those that are fixed, and the scope in which all stand."""
        scope = Scope(declared)
        found = scope.parameters(form.parts if form else [])
        for word, (term, _) in found.items():
            if term != word and ('parameter', word, term) not in declared.names.changes:
                declared.names.changes.append(('parameter', word, term))
        meant = {word: (fixed[term], declared.objects[fixed[term]]) if term in fixed else (term, kind)
                 for word, (term, kind) in found.items()}
        return {term: kind for term, kind in found.values() if term not in fixed}, scope.adding(meant)

    def counts(self) -> List[int]:
        """How many alternatives each choice has."""
        return self.queries.counts + self.did.counts

    def check(self) -> None:
        """The limits on an action."""
        at_most, form = limits.at_most, self.form
        at_most(limits.PARAMETERS, len(self.parameters), form,
                'an action has at most {} parameters',
                'Leave out what follows from the others, or split it into two actions.')
        at_most(limits.PRECONDITIONS, len(self.queries.texts), form,
                'an action has at most {} preconditions', 'Keep a fact for some of them.')
        at_most(limits.EFFECTS, len(self.effects), form, 'an action has at most {} effects',
                'Take fewer objects, or split it into two actions.')
        at_most(limits.SENSES, len(self.senses), form, 'an action has at most {} senses',
                'Take fewer objects, or split it into two actions.')


def refuse_second(keyword: Form, first: Form, second: Form) -> NoReturn:
    """Refuses a second list behind a keyword, which one list that has both mends."""
    both = f'{first.text()} {second.text()}'
    cure = 'Write the variables of both in one list.' if keyword.word == ':parameters' else f'Write `(and {both})`.'
    if keyword.word in OBSERVATIONS:
        cure = f'Write `(and {both})`, which observes whether both are true, or `({both})`, which observes each.'
    raise Refusal(second, f'`{keyword.text()}` has one list behind it, and this is a second one', cure)


def fixings(form: Form, declared: Declared) -> List[Fixing]:
    """Where an action has too many parameters, each choice of objects for some of them, of the types with fewest objects."""
    parameters, _ = Action.read_parameters(Action.parts_of(form).get(':parameters'), declared, {})
    fewest = sorted(parameters, key=lambda term: len(declared.objects_of(parameters[term])))
    fixed = fewest[:max(0, len(parameters) - limits.PARAMETERS)]
    number = math.prod(len(declared.objects_of(parameters[term])) for term in fixed)
    if not 0 < number <= MOST_ACTIONS:
        return [{}]
    return [dict(zip(fixed, objects)) for objects in declared.tuples([parameters[term] for term in fixed])]


def ways(form: Form, declared: Declared, name: str, most: Callable[[int], None]) -> List[Tuple[Fixing, Tuple[int, ...]]]:
    """The ways to write an action: which objects stand for parameters, and which alternatives are taken.

    `most` refuses too many.
    """
    found: List[Tuple[Fixing, Tuple[int, ...]]] = []
    choices = fixings(form, declared)
    for fixed in choices:
        try:
            counts = Action(form, declared, name, fixed).counts()
        except NeverTrue:
            if len(choices) == 1:
                raise
            continue
        most(len(found) + math.prod(counts))
        found += [(fixed, picks) for picks in itertools.product(*(range(count) for count in counts))]
    return found


def written_out(form: Form, declared: Declared, goal: Optional[Refusal] = None) -> List[Action]:
    """An action, or one for each way to write it: for each alternative of a precondition, each cost, each object that
    stands for a parameter too many. `goal` is what is said of a goal of which this action is made."""
    Action.parts_of(form)
    name = declared.names.declare('action', form.parts[1])
    what = 'a goal may be met in at most {} ways' if goal else 'an action may be written as at most {} actions'
    cure = goal.instead if goal else 'Keep a fact for what its precondition asks, and take fewer different costs.'
    place = goal.form if goal else form
    all_ways = ways(form, declared, name, lambda number: limits.at_most(MOST_ACTIONS, number, place, what, cure))
    found: List[Action] = []
    for at, (fixed, picks) in enumerate(all_ways, 1):
        own = name if len(all_ways) == 1 else declared.names.extra('action', f'{name}-{at}')
        found.append(Action(form, declared, own, fixed, picks))
        found[-1].remarks += remarks_on(found[-1], at, len(all_ways))
    return found


def remarks_on(action: Action, at: int, number: int) -> Iterator[str]:
    """Comments on why an action is written otherwise than in PDDL."""
    if action.queries.counts:
        yield f'Its precondition in PDDL has an `or`: this is {at} of {number} actions, one for each way.'
    if action.did.counts:
        yield f'In PDDL its cost hangs on its arguments: this is {at} of {number} actions, one for each cost.'
    if action.fixed:
        stand = ', '.join(f'{term} is {thing}' for term, thing in action.fixed.items())
        yield f'In PDDL it has more than {limits.PARAMETERS} parameters: here {stand}.'


def read_actions(domain: Form, declared: Declared) -> List[Action]:
    """The actions of a domain, in their order."""
    found = []
    for form in domain.rest()[1:]:
        head = form.head()
        if head in UNSAID:
            raise Refusal(form, *UNSAID[head])
        if head not in SECTIONS:
            raise Refusal(form, f'a domain can\'t have `{form.shown()}`',
                          'It has ' + ', '.join(f'`{s}`' for s in SECTIONS) + '.')
        if head == ':action':
            if len(form.parts) > 1 and declared.names.find('action', form.parts[1].word):
                raise Refusal(form.parts[1], f'the action `{form.parts[1].raw}` stands twice',
                              'Give one of the two another name.')
            found += written_out(form, declared)
    limits.at_most(limits.ACTIONS, len(found), found[-1].form if found else None,
                   'there are at most {} actions', 'Leave out those that nothing needs.')
    return found
