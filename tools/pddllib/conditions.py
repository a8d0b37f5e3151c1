"""Terms, literals and conditions.

A term is the name of an object or a parameter, or a tuple of a function and its arguments.
A condition becomes its alternatives: a list of conjunctions, each a list of literals, one of
which must be true.
"""

import itertools
import re
from typing import Dict, Iterator, List, NamedTuple, NoReturn, Optional, Sequence, Tuple, Union

from pkslib import Expression

from . import limits
from .declared import Declared
from .names import fitting
from .text import Form, Refusal, typed

MOST_ALTERNATIVES = 64
NUMERIC = ('<', '>', '<=', '>=', '+', '-', '*', '/', 'total-cost')
NUMBER = re.compile(r'-?\d+(\.\d+)?')


TypedTerm = Tuple[Expression, str]
"""A term and its type."""


class Literal(NamedTuple):
    """An atom or an equation (its name is `=`), or the negation of one."""

    positive: bool
    name: str
    args: Tuple[Expression, ...]

    def negated(self) -> 'Literal':
        """The literal that is true where this one is false."""
        return Literal(not self.positive, self.name, self.args)

    def atom(self) -> 'Literal':
        """The literal without its negation."""
        return Literal(True, self.name, self.args)

    def __str__(self) -> str:
        """The literal in the words of the planner's format."""
        atom = term_text((self.name,) + self.args)
        return atom if self.positive else f'(not {atom})'


Alternatives = List[List[Literal]]
"""Conjunctions of literals, one of which must be true."""


def term_text(term: Expression) -> str:
    """A term in the words of the planner's format."""
    if isinstance(term, str):
        return term
    return '(' + ' '.join(term_text(part) for part in term) + ')'


def height(term: Expression) -> int:
    """How deep functions stand within each other."""
    if isinstance(term, str):
        return 0
    return 1 + max((height(part) for part in term[1:]), default=0)


class Scope:
    """The variables at a place: for each the term that it stands for, and its type."""

    def __init__(self, declared: Declared, variables: Optional[Dict[str, TypedTerm]] = None) -> None:
        self.declared = declared
        self.variables = variables or {}

    def adding(self, more: Dict[str, TypedTerm]) -> 'Scope':
        """The scope with more variables."""
        return Scope(self.declared, {**self.variables, **more})

    def parameters(self, forms: Sequence[Form]) -> Dict[str, Tuple[str, str]]:
        """The parameters of a list, with the terms that stand for them here."""
        found, taken = {}, {term for term, _ in self.variables.values()}
        for name, kind in typed(forms):
            if not name.is_variable():
                raise Refusal(name, f'`{name.text()}` is no variable', 'Variables begin with `?`.')
            if name.word in found:
                raise Refusal(name, f'`{name.raw}` stands twice', 'Give it another name.')
            term = '?' + fitting(name.word[1:])
            wanted, number = term, 2
            while term in taken:
                term, number = f'{wanted}-{number}', number + 1
            taken.add(term)
            found[name.word] = (term, self.declared.type_of(kind))
        return found

    def instances(self, forms: Sequence[Form]) -> 'Iterator[Scope]':
        """A scope for each choice of objects for the variables of a list."""
        found = self.parameters(forms)
        kinds = [kind for _, kind in found.values()]
        for objects in self.declared.tuples(kinds):
            yield self.adding({v: (o, self.declared.objects[o]) for v, o in zip(found, objects)})


# Terms and literals

def term(form: Form, scope: Scope) -> TypedTerm:
    """A term and its type."""
    declared = scope.declared
    if form.is_list():
        return application(form, scope)
    if form.is_variable():
        if form.word not in scope.variables:
            raise Refusal(form, f'the variable `{form.raw}` isn\'t declared here',
                          'Add it to `:parameters`.')
        return scope.variables[form.word]
    name = declared.names.find('object', form.word)
    if name is None and declared.names.find('function', form.word):
        return application(form, scope)
    if name is None:
        refuse_undeclared(form, 'object', '`:objects` or `:constants`', declared)
    return name, declared.objects[name]


def application(form: Form, scope: Scope) -> TypedTerm:
    """A place `(f ..)`, also where it is written as `f`, and its type."""
    head = form if not form.is_list() else form.parts[0] if form.parts else form
    name = head.word and scope.declared.names.find('function', head.word)
    if not name:
        refuse_number(head)
        refuse_undeclared(head, 'function', '`:functions`', scope.declared)
    types, result = scope.declared.functions[name]
    found = (name,) + arguments(form, form.rest() if form.is_list() else [], types, scope)
    if height(found) > 2:
        raise Refusal(form, 'values stand within each other more than two deep',
                      'Assign the inner one to a function of its own first.')
    return found, result


def arguments(form: Form, parts: Sequence[Form], types: Sequence[str], scope: Scope) -> Tuple[Expression, ...]:
    """The terms of a list, which must be of these types."""
    if len(parts) != len(types):
        raise Refusal(form, f'`{form.shown()}` has {len(parts)} arguments, and {len(types)} are '
                      'declared', 'Write as many as are declared.')
    found = []
    for part, wanted in zip(parts, types):
        value, own = term(part, scope)
        if not scope.declared.fits(own, wanted):
            raise Refusal(part, f'`{part.text()}` is of the type `{own}`, and `{wanted}` is wanted',
                          f'Declare it as a `{wanted}`, or `{own}` as a type below `{wanted}`.')
        found.append(value)
    return tuple(found)


def atom(form: Form, scope: Scope) -> Literal:
    """A predicate with its arguments."""
    head = form.parts[0] if form.parts else form
    name = head.word and scope.declared.names.find('predicate', head.word)
    if not name:
        refuse_number(head)
        refuse_undeclared(head, 'predicate', '`:predicates`', scope.declared)
    types = scope.declared.predicates[name]
    return Literal(True, name, arguments(form, form.rest(), types, scope))


def equation(form: Form, scope: Scope) -> Union[bool, Literal]:
    """An equation, or whether it is true where that is clear at once."""
    if len(form.parts) != 3:
        raise Refusal(form, 'an equation has two sides', 'Write `(= a b)`.')
    for part in form.rest():
        if not scope.declared.names.find('object', part.word):
            refuse_number(part)
    (left, one), (right, other) = (term(part, scope) for part in form.rest())
    fits = scope.declared.fits
    if left == right:
        return True
    if not fits(one, other) and not fits(other, one):
        return False
    if left in scope.declared.objects and right in scope.declared.objects:
        return False
    return Literal(True, '=', (left, right))


def refuse_undeclared(form: Form, kind: str, where: str, declared: Declared) -> NoReturn:
    """Refuses a name that isn't declared."""
    raise Refusal(form, f'the {kind} `{form.text()}` isn\'t declared',
                  declared.names.cure(kind, form.word or '', where))


def refuse_number(form: Form) -> None:
    """Refuses a number, and what is done with numbers."""
    word = form.word or form.head() or ''
    if word in NUMERIC or NUMBER.fullmatch(word):
        raise Refusal(form, 'there are no numbers here but costs',
                      'Use objects for the amounts, and facts such as `(less n1 n2)`.')


# Conditions

def alternatives(form: Form, scope: Scope, positive: bool = True) -> Alternatives:
    """The alternatives of a condition, or of its negation."""
    if not form.is_list():
        raise Refusal(form, 'a condition is wanted here, and not a word', 'Write `(NAME ..)`.')
    head, parts = form.head(), form.rest()
    if not form.parts:
        return [[]] if positive else []
    if head == 'not':
        return alternatives(only(form), scope, not positive)
    if head in ('and', 'or'):
        found = [alternatives(part, scope, positive) for part in parts]
        return joined(form, found, (head == 'and') == positive)
    if head in ('imply', '=>'):
        if len(parts) != 2:
            raise Refusal(form, 'an implication has two parts', 'Write `(imply a b)`.')
        found = [alternatives(parts[0], scope, not positive),
                 alternatives(parts[1], scope, positive)]
        return joined(form, found, not positive)
    if head in ('forall', 'exists'):
        variables, body = quantified(form)
        found = [alternatives(body, inner, positive) for inner in scope.instances(variables)]
        return joined(form, found, (head == 'forall') == positive)
    return literal_alternatives(form, scope, positive)


def literal_alternatives(form: Form, scope: Scope, positive: bool) -> Alternatives:
    """The alternatives of a literal, or of its negation: one, or none where it is never true."""
    if form.head() in ('knows-whether', 'knows-value', 'knows', 'know', 'unknown', 'oneof'):
        raise Refusal(form, f'`{form.head()}` can\'t stand here',
                      'What is known may be asked by a precondition or the goal alone, outside of '
                      '`or`, `not` and quantifiers.')
    if form.head() == 'preference' and not scope.declared.names.find('predicate', 'preference'):
        raise Refusal(form, 'preferences can\'t be said', 'Ask for what is preferred, or take it out.')
    found = equation(form, scope) if form.head() == '=' else atom(form, scope)
    if isinstance(found, bool):
        return [[]] if found == positive else []
    return [[found if positive else found.negated()]]


def joined(form: Form, found: Sequence[Alternatives], all_of: bool) -> Alternatives:
    """The alternatives of a conjunction, or of a disjunction."""
    if not all_of:
        result = [conj for part in found for conj in part]
    else:
        result = [[]]
        for part in found:
            result = [before + conj for before, conj in itertools.product(result, part)]
            check_number(form, result)
        result = [list(dict.fromkeys(conj)) for conj in result]
    result = [conj for conj in result if not any(l.negated() in conj for l in conj)]
    check_number(form, result)
    return result


def check_number(form: Form, result: Alternatives) -> None:
    """Refuses a condition that has too many alternatives."""
    limits.at_most(MOST_ALTERNATIVES, len(result), form,
                   'a condition may have {} alternatives when it is written out',
                   'Keep a fact for it, which the actions set.')


def only(form: Form) -> Form:
    """The one part behind the head of a list."""
    if len(form.parts) != 2:
        raise Refusal(form, f'`{form.head()}` has one part', f'Write `({form.head()} (p ..))`.')
    return form.parts[1]


def quantified(form: Form) -> Tuple[List[Form], Form]:
    """The variables of `forall` and `exists`, and what is said of them."""
    if len(form.parts) != 3 or not form.parts[1].is_list():
        raise Refusal(form, f'`{form.head()}` has a list of variables and one part',
                      f'Write `({form.head()} (?x - t) (p ?x))`.')
    return form.parts[1].parts, form.parts[2]


# Queries

class NeverTrue(Refusal):
    """A condition that is never true."""


class OneOf(Refusal):
    """A goal that asks for one of several alternatives."""


class Queries:
    """What a precondition or a goal asks, each as the planner's format has it."""

    def __init__(self, what: str, picks: Sequence[int] = ()) -> None:
        """Of conditions with several alternatives those that `picks` names are taken, of others the first."""
        self.what, self.picks = what, picks
        self.counts: List[int] = []
        self.texts: List[str] = []
        self.literals: List[Literal] = []
        self.parameters: Dict[str, str] = {}

    def read(self, form: Form, scope: Scope) -> Scope:
        """Takes the conjuncts one by one."""
        head = form.head()
        if head == 'and':
            for part in form.rest():
                scope = self.read(part, scope)
        elif head == 'forall':
            variables, body = quantified(form)
            for inner in scope.instances(variables):
                self.read(body, inner)
        elif head == 'exists' and self.what == 'precondition':
            variables, body = quantified(form)
            more = scope.parameters(variables)
            self.parameters.update({term: kind for term, kind in more.values()})
            self.read(body, scope.adding(more))
            scope = scope.adding({'; ' + value[0]: value for value in more.values()})
        elif head in ('knows-whether', 'knows-value', 'knows', 'know'):
            self.known(form, scope)
        elif form.parts or not form.is_list():
            self.condition(form, scope)
        return scope

    def known(self, form: Form, scope: Scope) -> None:
        """Takes what asks for knowledge by its word."""
        if form.head() == 'knows-value':
            self.add(f'(kv {term_text(application(only(form), scope)[0])})')
        elif form.head() == 'knows-whether':
            self.add('(kw ' + ' '.join(map(str, formula(only(form), scope))) + ')')
        else:
            self.condition(only(form), scope)

    def condition(self, form: Form, scope: Scope) -> None:
        """Takes a condition, each of its literals as known."""
        found = alternatives(form, scope)
        if not found:
            raise NeverTrue(form, f'`{form.shown()}` is never true', 'Take it out.')
        for literal in found[self.picked(form, len(found))]:
            self.literal(literal)

    def literal(self, literal: Literal) -> None:
        """Takes a literal as known."""
        self.literals.append(literal)
        self.add(f'(k {literal})')

    def picked(self, form: Form, number: int) -> int:
        """Which of so many alternatives is taken; a goal can have only one."""
        if number == 1:
            return 0
        if self.what == 'goal':
            raise OneOf(form, f'a goal can\'t ask for one of {number} alternatives',
                          'Add an action for each, which sets a fact, and ask for that fact.')
        self.counts.append(number)
        return self.picks[len(self.counts) - 1] if len(self.counts) <= len(self.picks) else 0

    def add(self, text: str) -> None:
        """Takes a query that isn't there yet."""
        if text not in self.texts:
            self.texts.append(text)


def formula(form: Form, scope: Scope) -> List[Literal]:
    """The literals of a conjunction whose truth is asked; an `or` is asked by its negation."""
    found = alternatives(form, scope)
    if len(found) != 1:
        found = alternatives(form, scope, False)
    if len(found) != 1 or not found[0]:
        raise Refusal(form, f'`{form.shown()}` is no conjunction of literals',
                      'Take its parts one by one.')
    limits.at_most(limits.CONDITION, len(found[0]), form, 'a formula has at most {} literals',
                   'Take its parts one by one.')
    return found[0]
