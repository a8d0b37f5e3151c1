"""What is known at the start.

All that isn't said is false in PDDL; so each predicate gets its negatives, one by one or as a
region of which nothing else is true, whichever are fewer. What `unknown`, `oneof` and `or` speak
of is left out of that.
"""

import itertools
from typing import Collection, List, Optional, Sequence, Tuple, Union

from pkslib import Expression

from . import limits
from .conditions import (NUMBER, Literal, Scope, application, arguments, atom, equation, literal_alternatives,
                         only, quantified, term_text)
from .declared import Declared
from .text import Form, Refusal

Pattern = Tuple[Expression, ...]
"""A predicate and its arguments, with `_` where all objects are meant."""

MOST_NEGATIVES = 24
"""From how many facts on the negatives of a predicate that grows are told as a region."""


class Start:
    """The items of `init`, each list in the order in which it is written."""

    def __init__(self, declared: Declared, growing: Collection[Optional[str]]) -> None:
        """`growing` are the predicates of which an action makes facts true."""
        self.declared, self.growing = declared, growing
        self.scope = Scope(declared)
        self.facts, self.values, self.negatives = [], [], []
        self.regions, self.groups, self.helpers = [], [], []
        self.unknown, self.clauses = [], []

    def read(self, form: Form) -> None:
        """Takes a form of `:init`."""
        head = form.head()
        if head == 'and':
            for part in form.rest():
                self.read(part)
        elif head == 'forall':
            variables, body = quantified(form)
            for inner in self.scope.instances(variables):
                self.within(inner, body)
        elif head == 'unknown':
            self.leave_open(self.literal(only(form)))
        elif head == 'oneof':
            self.add_group(form, [self.literal(part) for part in form.rest()])
        elif head == 'or':
            self.add_clause(form)
        elif head == 'probabilistic':
            self.add_chances(form)
        elif form.head() == '=' and place_of(form) in self.declared.amounts:
            self.add_amount(form)
        elif is_timed(form):
            raise Refusal(form, 'a fact at a later time can\'t be said', 'Take it out.')
        elif form.parts and not is_cost(form):
            self.add_fact(form)

    def within(self, scope: Scope, form: Form) -> None:
        """Takes a form in which more variables stand for objects."""
        outer, self.scope = self.scope, scope
        self.read(form)
        self.scope = outer

    def literal(self, form: Form) -> Union[Literal, Expression]:
        """A literal that `oneof`, `or` or `unknown` names."""
        if form.head() in ('and', 'or', 'oneof', 'imply', 'forall', 'exists'):
            raise Refusal(form, f'`{form.shown()}` can\'t be a member here: members are facts and '
                          'their negations', 'Give it a predicate of its own, and name that; that it is so exactly where its '
                          'parts are is said by `(or (not (own)) (p))` for each part `(p)`, and `(or (own) (not (p)) ..)`.')
        inner = only(form) if form.head() == 'not' else form
        if self.declared.names.find('function', inner.head() or inner.word):
            return application(inner, self.scope)[0]
        found = literal_alternatives(inner, self.scope, form.head() != 'not')
        if not found or not found[0]:
            raise Refusal(form, 'it is known whether this equation is so', 'Take it out.')
        return found[0][0]

    def leave_open(self, literal: Union[Literal, Expression]) -> None:
        """Takes a fact of which nothing else is known."""
        if isinstance(literal, Literal) and literal.name != '=':
            if literal.atom() not in self.unknown:
                self.unknown.append(literal.atom())

    def add_group(self, form: Form, members: Sequence[Union[Literal, Expression]]) -> None:
        """Takes facts of which exactly one is true."""
        members = list(dict.fromkeys(members))
        if not members or any(not isinstance(m, Literal) for m in members):
            raise Refusal(form, 'a group has facts as members, or their negations',
                          'Write `(oneof (p) (q))`, and of values `(= (f) v)`.')
        limits.at_most(limits.GROUP, len(members), form, 'a group has at most {} members',
                       'Take fewer objects.')
        if len(members) == 1:
            self.facts.append(members[0])
            return
        for member in members:
            self.leave_open(member)
        self.groups.append((members, None))

    def add_chances(self, form: Form) -> None:
        """Chances that make one certainty are a group: a plan is for all that may be so."""
        parts = form.rest()
        chances = [float(part.word) if NUMBER.fullmatch(part.word or '') else None for part in parts[::2]]
        if None in chances or len(parts) % 2:
            raise Refusal(form, 'chances stand before what they are of', 'Write `(probabilistic 0.5 (p) 0.5 (q))`.')
        members = [part for chance, part in zip(chances, parts[1::2]) if chance > 0]
        if len(members) == 1 and chances[0] < 1:
            self.leave_open(self.literal(members[0]))
        elif abs(sum(chances) - 1) > 1e-6:
            raise Refusal(form, 'the chances don\'t make 1, so it may be that none of these is so',
                          'Write `(unknown ..)` for each, or name what else may be so.')
        else:
            self.add_group(form, [self.literal(part) for part in members])

    def add_clause(self, form: Form) -> None:
        """Takes facts of which at least one is true."""
        members = [self.literal(part) for part in form.rest()]
        if not members or any(not isinstance(m, Literal) for m in members):
            raise Refusal(form, 'an `or` has facts as members, or their negations',
                          'Write `(or (p) (q))`, and of values `(= (f) v)`.')
        for member in members:
            self.leave_open(member)
        self.clauses.append((form, tuple(dict.fromkeys(members))))

    def add_fact(self, form: Form) -> None:
        """Takes a fact that is true or false, or a value."""
        negative = form.head() == 'not'
        inner = only(form) if negative else form
        if inner.head() == '=':
            found = equation(inner, self.scope)
            if isinstance(found, Literal):
                found = found.negated() if negative else found
                (self.values if found.positive else self.negatives).append(found)
        else:
            found = atom(inner, self.scope)
            self.facts.append(found.negated() if negative else found)

    def add_amount(self, form: Form) -> None:
        """Takes what actions with some arguments cost."""
        place, amount = form.rest()
        amounts = self.declared.amounts[place_of(form)]
        if not self.declared.minimizes:
            return
        if not (amount.word or '').isdigit():
            raise Refusal(amount, 'a cost is a whole number here', 'Scale fractions.')
        args = arguments(place, place.rest() if place.is_list() else [], amounts.types, self.scope)
        amounts.values[tuple(map(str, args))] = int(amount.word)

    # Clauses

    def settle_clauses(self) -> None:
        """Writes each `or` as a group, alone or with those that say that no two are true."""
        pairs = {frozenset(members) for _, members in self.clauses if len(members) == 2}
        exclusive = {frozenset((a.negated(), b.negated())) for group, _ in self.groups
                     for a, b in itertools.combinations(group, 2)}
        used = set()
        for form, members in self.clauses:
            excluded = {frozenset((a.negated(), b.negated()))
                        for a, b in itertools.combinations(members, 2)}
            if frozenset(members) not in used and excluded and excluded <= pairs | exclusive:
                used |= (excluded & pairs) | {frozenset(members)}
                self.add_group(form, list(members))
        for form, members in self.clauses:
            if frozenset(members) not in used:
                used.add(frozenset(members))
                self.settle_clause(form, members)

    def settle_clause(self, form: Form, members: Tuple[Literal, ...]) -> None:
        """Writes an `or` that no other one makes a group."""
        if len(members) == 1:
            self.facts.append(members[0])
        elif len(members) > 2:
            self.settle_long_clause(form, members)
        else:
            both = self.helper(form, 'both')
            said = f'{form.shown().lower()}; {both} is true where both are'
            self.groups.append(([m.negated() for m in members] + [both], said))

    def settle_long_clause(self, form: Form, members: Tuple[Literal, ...]) -> None:
        """Exactly one of those that are true counts: the first member itself, or what stands for another one."""
        limits.at_most(limits.GROUP, len(members), form, 'an `or` has at most {} members', 'Take fewer objects.')
        counting = [(self.helper(form, 'counts'), member, self.helper(form, 'beside')) for member in members[1:]]
        said = f'{form.shown().lower()}: of those that are true exactly one counts'
        self.groups.append(([members[0]] + [counts for counts, _, _ in counting], said))
        for counts, member, beside in counting:
            said = f'{member} counts where {counts} is true, and {beside} where it is true and another one counts'
            self.groups.append(([member.negated(), counts, beside], said))

    def helper(self, form: Form, name: str) -> Literal:
        """A new fact, which stands for nothing in PDDL."""
        found = self.declared.names.extra('predicate', f'{name}-{len(self.helpers) + 1}')
        self.declared.predicates[found] = []
        self.helpers.append(found)
        limits.at_most(limits.PREDICATES, len(self.declared.predicates), form,
                       'there are at most {} predicates, with some for each `or`',
                       'Leave out those that nothing uses, or write `(oneof ..)` where exactly one is true.')
        return Literal(True, found, ())

    # The closed world

    def finish(self) -> None:
        """Adds to what is said that all else is false."""
        self.settle_clauses()
        self.facts += [Literal(True, name, args) for name, args in self.declared.tell_amounts()]
        stated = list(dict.fromkeys(self.facts))
        self.facts = [literal for literal in stated if literal.positive]
        self.negatives += [literal for literal in stated
                           if not literal.positive and literal.atom() in self.unknown]
        for name, types in self.declared.predicates.items():
            if name not in self.helpers:
                choices = [self.declared.objects_of(t) for t in types]
                for found in self.closed(name, choices, [None] * len(types)):
                    (self.negatives if isinstance(found, Literal) else self.regions).append(found)

    def closed(self, name: str, choices: List[List[str]], fixed: List[Optional[str]]) -> List[Union[Literal, Pattern]]:
        """The fewest items by which all of a pattern that isn't true is known to be false."""
        mine = lambda atoms: [l for l in atoms if l.name == name and l.positive and
                              all(f in (None, a) for f, a in zip(fixed, l.args))]
        open_here, true_here = mine(self.unknown), mine(self.facts)
        size = 1
        for choice, value in zip(choices, fixed):
            size *= 1 if value is not None else len(choice)
        left = size - len({l for l in open_here + true_here})
        if left == 0:
            return []
        free = [i for i, value in enumerate(fixed) if value is None]
        # (an action that adds to a closed world keeps the past open, which makes a search long)
        is_region = name not in self.growing or left > MOST_NEGATIVES
        if not open_here and left > 1 and is_region and len(free) <= limits.WILDCARDS:
            return [(name,) + tuple(value or '_' for value in fixed)]
        if not free:
            return [Literal(False, name, tuple(fixed))]
        ways = [self.split(name, choices, fixed, place) for place in free]
        return min(ways, key=len)

    def split(self, name: str, choices: List[List[str]], fixed: List[Optional[str]],
              place: int) -> List[Union[Literal, Pattern]]:
        """The same with one place of the pattern set to each of its objects."""
        found = []
        for value in choices[place]:
            found += self.closed(name, choices, fixed[:place] + [value] + fixed[place + 1:])
        return found


def is_timed(form: Form) -> bool:
    """`(at 5 (p))`."""
    return form.head() == 'at' and len(form.parts) == 3 and form.parts[2].is_list() \
        and NUMBER.fullmatch(form.parts[1].word or '') is not None


def place_of(form: Form) -> str:
    """The function of which an equation of two sides tells a value, or ''."""
    return form.parts[1].head() or form.parts[1].word or '' if len(form.parts) == 3 else ''


def is_cost(form: Form) -> bool:
    """`(= (total-cost) 0)`."""
    return form.head() == '=' and any(part.mentions(['total-cost']) for part in form.rest())


def item(literal: Literal) -> str:
    """The item of `init` that tells a literal."""
    return f'(kf {literal})'


def region(pattern: Pattern) -> str:
    """The item of `init` that closes a pattern."""
    return '(lcw (' + ' '.join(term_text(part) for part in pattern) + '))'
