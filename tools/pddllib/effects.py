"""What an action does, and what it observes.

PDDL takes facts away before it adds some, and here the last effect in written order wins; so
`unset` and `clear` are written before `set`.
"""

from typing import Dict, List, NamedTuple, NoReturn, Optional, Sequence, Tuple

from pkslib import Expression

from . import limits
from .conditions import (Literal, Scope, alternatives, application, arguments, atom, formula, only,
                         quantified, term_text)
from .declared import Declared
from .text import Form, Refusal, typed

CHANCE = ('oneof', 'or', 'probabilistic', 'unknown')
NUMERIC = ('increase', 'decrease', 'scale-up', 'scale-down')
OBSERVING = ('knows-whether', 'knows-value', 'observe', 'sense')
ORDER = {'unset': 0, 'clear': 0, 'set': 1, 'assign': 2}


Conditions = Sequence[Tuple[Literal, ...]]
"""Conjunctions, under each of which an effect happens."""

Target = Tuple[Expression, ...]
"""What an effect is about: an atom or a pattern, or a place and its value."""


class Effect(NamedTuple):
    """A `set`, `unset`, `clear` or `assign` under a conjunction of literals."""

    conditions: Tuple[Literal, ...]
    head: str
    target: Target

    def __str__(self) -> str:
        """The effect in the words of the planner's format."""
        target = f'({self.head} {" ".join(term_text(part) for part in self.target)})'
        if not self.conditions:
            return target
        return f'(when ({" ".join(map(str, self.conditions))}) {target})'

    def literal(self) -> Optional[Literal]:
        """What a `set` or `unset` makes so."""
        if self.head not in ('set', 'unset'):
            return None
        return Literal(self.head == 'set', self.target[0][0], self.target[0][1:])


class Effects:
    """The effects, senses and cost of an action."""

    def __init__(self, declared: Declared, picks: Sequence[int] = ()) -> None:
        """Of costs that hang on arguments those that `picks` names are taken, of others the first."""
        self.declared, self.picks = declared, picks
        self.counts: List[int] = []
        self.where: List[Literal] = []
        self.effects: List[Effect] = []
        self.senses: List[str] = []
        self.cost = 0

    def in_order(self) -> List[Effect]:
        """The effects in the order in which they are written."""
        return sorted(self.effects, key=lambda e: ORDER[e.head])

    def read(self, form: Form, scope: Scope, conditions: Conditions = ((),)) -> None:
        """Takes an effect that happens under one of these conjunctions."""
        head = form.head()
        if not form.is_list():
            raise Refusal(form, 'an effect is wanted here, and not a word', 'Write `(p ..)`.')
        if not form.parts:
            return
        if head == 'and':
            for part in form.rest():
                self.read(part, scope, conditions)
        elif head == 'when':
            self.when(form, scope, conditions)
        elif head == 'forall':
            self.forall(form, scope, conditions)
        elif head == 'assign':
            self.assign(form, scope, conditions)
        elif head in NUMERIC:
            self.increase(form, scope, conditions)
        elif head in OBSERVING and not self.declared.names.find('predicate', head):
            self.told(form, scope, conditions)
        elif head in CHANCE:
            refuse_chance(form)
        else:
            self.literal(form, scope, conditions)

    def add(self, form: Form, conditions: Conditions, head: str, target: Target) -> None:
        """Takes an effect once for each conjunction."""
        for conj in conditions:
            limits.at_most(limits.CONDITION, len(conj), form,
                           'an effect has at most {} conditions',
                           'Let an action before it set a fact that stands for some of them.')
            effect = Effect(tuple(conj), head, target)
            if effect not in self.effects:
                self.effects.append(effect)

    def literal(self, form: Form, scope: Scope, conditions: Conditions) -> None:
        """Takes a fact that becomes true or false."""
        negative = form.head() == 'not'
        found = atom(only(form) if negative else form, scope)
        self.add(form, conditions, 'unset' if negative else 'set', ((found.name,) + found.args,))

    def when(self, form: Form, scope: Scope, conditions: Conditions) -> None:
        """Takes an effect under a condition of its own."""
        self.read(parts_of_when(form)[1], scope, under(form, scope, conditions))

    def forall(self, form: Form, scope: Scope, conditions: Conditions) -> None:
        """Writes an effect out for all objects, or takes it as a `clear`."""
        variables, body = quantified(form)
        names = [name.word for name, _ in typed(variables)]
        if body.head() == 'when' and not parts_of_when(body)[0].mentions(names):
            conditions, body = under(body, scope, conditions), body.parts[2]
        pattern = self.pattern(body, scope, scope.parameters(variables))
        if pattern is not None:
            self.add(form, conditions, 'clear', (pattern,))
            return
        for inner in scope.instances(variables):
            self.read(body, inner, conditions)

    def pattern(self, body: Form, scope: Scope, own: Dict[str, Tuple[str, str]]) -> Optional[Tuple[Expression, ...]]:
        """The pattern of all facts that a negation takes away, or None where it isn't one."""
        if body.head() != 'not' or len(body.parts) != 2 or not body.parts[1].parts:
            return None
        fact = body.parts[1]
        name = self.declared.names.find('predicate', fact.head())
        types = self.declared.predicates.get(name, [])
        open_places = [part.word for part in fact.rest() if part.word in own]
        if len(fact.rest()) != len(types) or sorted(open_places) != sorted(own) \
                or len(open_places) > limits.WILDCARDS:
            return None
        slots = []
        for part, wanted in zip(fact.rest(), types):
            if part.word in own:
                slots.append('_')
                if self.declared.objects_of(own[part.word][1]) != self.declared.objects_of(wanted):
                    return None
            elif part.mentions(own):
                return None
            else:
                slots.append(arguments(fact, [part], [wanted], scope)[0])
        return (name,) + tuple(slots)

    def assign(self, form: Form, scope: Scope, conditions: Conditions) -> None:
        """Takes a new value of a place."""
        if len(form.parts) != 3:
            raise Refusal(form, '`assign` has a place and a value', 'Write `(assign (f ..) v)`.')
        place, wanted = application(form.parts[1], scope)
        value = arguments(form, form.parts[2:], [wanted], scope)[0]
        self.add(form, conditions, 'assign', (place, value))

    def increase(self, form: Form, scope: Scope, conditions: Conditions) -> None:
        """A cost."""
        place = form.parts[1].text().lower() if len(form.parts) == 3 else ''
        if form.head() != 'increase' or place not in ('(total-cost)', 'total-cost'):
            raise Refusal(form, 'there are no numbers here but costs',
                          'Use objects for the amounts, and facts such as `(next n1 n2)`.')
        amount = form.parts[2]
        if list(map(tuple, conditions)) != [()]:
            raise Refusal(form, 'a cost can\'t stand under a condition',
                          'Make an action for each cost.')
        if (amount.head() or amount.word) in self.declared.amounts:
            self.cost += self.amount(amount, scope)
        elif (amount.word or '').isdigit():
            self.cost += int(amount.word)
        else:
            raise Refusal(amount, 'a cost is a whole number here',
                          'Make an action for each cost, and scale fractions.')
        limits.at_most(limits.COST, self.cost, form, 'an action costs at most {}',
                       'Scale all costs.')

    def amount(self, form: Form, scope: Scope) -> int:
        """A cost that hangs on arguments: one of those that there may be, and where it is so."""
        amounts = self.declared.amounts[form.head() or form.word]
        args = arguments(form, form.rest() if form.is_list() else [], amounts.types, scope)
        found = amounts.at(args, self.declared.objects)
        if not self.declared.minimizes:
            return 0
        if not found:
            raise Refusal(form, f'`{form.shown()}` has no value at the start', 'Write it into `:init`.')
        self.counts.append(len(found))
        at = self.picks[len(self.counts) - 1] if len(self.counts) <= len(self.picks) else 0
        self.where.append(Literal(True, amounts.predicates[found[at]], args))
        return found[at]

    def told(self, form: Form, scope: Scope, conditions: Conditions) -> None:
        """An observation that stands among the effects."""
        if list(map(tuple, conditions)) != [()]:
            raise Refusal(form, 'an observation can\'t stand under a condition',
                          'Make an action of its own, with the condition as its precondition.')
        self.observe(only(form), scope)

    def observe(self, form: Form, scope: Scope) -> None:
        """What is observed: a value, a formula, or a list of them."""
        head = form.head()
        if form.is_list() and form.parts and form.parts[0].is_list():
            for part in form.parts:
                self.observe(part, scope)
        elif head in OBSERVING and not self.declared.names.find('predicate', head):
            self.told(form, scope, ((),))
        elif head == 'forall':
            variables, body = quantified(form)
            for inner in scope.instances(variables):
                self.observe(body, inner)
        elif self.declared.names.find('function', head or form.word):
            self.sense(f'(sense-value {term_text(application(form, scope)[0])})')
        elif form.parts or not form.is_list():
            self.sense('(sense ' + ' '.join(map(str, formula(form, scope))) + ')')

    def sense(self, text: str) -> None:
        """Takes a sense that isn't there yet."""
        if text not in self.senses:
            self.senses.append(text)


def parts_of_when(form: Form) -> List[Form]:
    """The condition and the effect of a `when`."""
    if len(form.parts) != 3:
        raise Refusal(form, '`when` has a condition and an effect', 'Write `(when (c) (p))`.')
    return form.rest()


def under(form: Form, scope: Scope, conditions: Conditions) -> Conditions:
    """The conjunctions under which the effect of a `when` happens, within others.

    Those that are never true are left out.
    """
    found = alternatives(form.parts[1], scope)
    both = [tuple(dict.fromkeys(tuple(a) + tuple(b))) for a in conditions for b in found]
    never = lambda conj: any(l.negated() in conj or scope.declared.fixed.denies(l) for l in conj)
    return [conj for conj in both if not never(conj)]


def refuse_chance(form: Form) -> NoReturn:
    """Refuses an effect that turns out by chance."""
    if form.head() == 'unknown':
        raise Refusal(form, 'an effect can\'t make a fact unknown',
                      'Set it under a condition, `when`, that nobody knows.')
    raise Refusal(form, f'an effect can\'t turn out by chance, as `{form.head()}` says',
                  'Put what it hangs on into a fact that is `unknown` in `:init`, under `when`.')
