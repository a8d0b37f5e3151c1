"""What a domain and a problem declare: types, objects, predicates, functions."""

import itertools
from typing import TYPE_CHECKING, Collection, Dict, Iterable, Iterator, List, NoReturn, Optional, Sequence, Tuple

from pkslib import Expression

from . import limits
from .names import Names, fitting
from .text import Form, Refusal, typed

if TYPE_CHECKING:
    from .fixed import Fixed

# What needs those that can't be said is refused where it stands.
REQUIREMENTS = """:strips :typing :negative-preconditions :disjunctive-preconditions :equality
:existential-preconditions :universal-preconditions :quantified-preconditions :conditional-effects
:adl :fluents :object-fluents :numeric-fluents :action-costs :constants :contingent :sensing
:partial-observability :non-deterministic :open-world :unknown :derived-predicates
:durative-actions :duration-inequalities :continuous-effects :timed-initial-literals :preferences
:constraints :probabilistic-effects :mdp :rewards""".split()
OBJECT = 'object'


class Amounts:
    """A function whose values are what actions cost: the types of its arguments, its values at the start, and for each
    cost the predicate that tells where it is so."""

    def __init__(self, form: Form, types: List[str]) -> None:
        self.form, self.types = form, types
        self.values: Dict[Tuple[str, ...], int] = {}
        self.predicates: Dict[int, str] = {}

    def at(self, args: Sequence[Expression], objects: Collection[str]) -> List[int]:
        """The costs that there may be at these arguments, of which those that are no objects may be any."""
        return sorted({value for place, value in self.values.items()
                       if all(arg == own or arg not in objects for arg, own in zip(args, place))})


class Declared:
    """All declarations, by the names that they have here."""

    def __init__(self, domain: Form, problem: Form) -> None:
        self.names = Names()
        self.parents: Dict[str, Optional[str]] = {}
        self.objects: Dict[str, str] = {}
        self.predicates: Dict[str, List[str]] = {}
        self.functions: Dict[str, Tuple[List[str], str]] = {}
        self.amounts: Dict[str, Amounts] = {}
        self.minimizes = False
        self.uses_object = False
        self.fixed: 'Optional[Fixed]' = None
        for form in sections(domain, ':requirements') + sections(problem, ':requirements'):
            check_requirements(form)
        self.read_types(sections(domain, ':types'))
        self.read_objects(sections(domain, ':constants') + sections(problem, ':objects'))
        self.read_predicates(sections(domain, ':predicates'))
        self.read_functions(sections(domain, ':functions') + sections(domain, ':object-fluents'), domain)

    # Types

    def read_types(self, found: Sequence[Form]) -> None:
        """Takes the types, and then their parents."""
        pairs = [pair for form in found for pair in typed(form.rest())]
        for name, _ in pairs:
            self.declare_type(name)
        for name, parent in pairs:
            if parent is not None and name.word != OBJECT:
                self.set_parent(name, parent)

    def declare_type(self, form: Form) -> None:
        """Takes a type that isn't declared."""
        need_word(form, 'a type')
        if form.word != OBJECT and self.names.find('type', form.word) is None:
            self.parents[self.names.declare('type', form)] = None

    def set_parent(self, name: Form, parent: Form) -> None:
        """Takes the parent of a type, which isn't below it."""
        if parent.is_list():
            refuse_either(parent)
        if parent.word == OBJECT:
            return
        self.declare_type(parent)
        own, above = self.names.find('type', name.word), self.names.find('type', parent.word)
        if self.fits(above, own):
            raise Refusal(parent, f'`{name.raw}` and `{parent.raw}` are parents of each other',
                          'A type has one parent, which isn\'t below it.')
        if self.parents[own] not in (None, above):
            raise Refusal(parent, f'`{name.raw}` has two parents', 'A type has one parent.')
        self.parents[own] = above

    def type_of(self, form: Optional[Form]) -> str:
        """The name of a type that is used; things without a type are objects."""
        if form is not None and form.is_list():
            refuse_either(form)
        if form is None or form.word == OBJECT:
            self.uses_object = True
            return OBJECT
        found = self.names.find('type', form.word)
        if found is None:
            raise Refusal(form, f'the type `{form.raw}` isn\'t declared',
                          self.names.cure('type', form.word or '', '`:types`'))
        return found

    def argument_type(self, form: Optional[Form]) -> str:
        """The type of a predicate's argument: of `(either ..)` the narrowest that has all of them, since a fact of
        another thing is merely never true."""
        if form is None or form.head() != 'either' or len(form.parts) < 2:
            return self.type_of(form)
        kinds = [self.type_of(part) for part in form.rest()]
        found: Optional[str] = kinds[0]
        while found is not None and not all(self.fits(kind, found) for kind in kinds):
            found = self.parents.get(found)
        return found if found is not None else self.type_of(None)

    def fits(self, own: Optional[str], wanted: str) -> bool:
        """Whether a thing of the one type may stand where the other is wanted."""
        while own is not None and own != wanted:
            own = self.parents.get(own)
        return own == wanted or wanted == OBJECT

    def check_types(self, domain: Form) -> None:
        """The limit on types; `object` counts where it is used."""
        limits.at_most(limits.TYPES, len(self.kinds()), (sections(domain, ':types') or [domain])[0],
                       'there are at most {} types',
                       'Leave types out, or tell kinds of objects apart by predicates.')

    def kinds(self) -> Dict[str, Optional[str]]:
        """The types with their parents, each behind its parent."""
        above = {t: p or (OBJECT if self.uses_object else None) for t, p in self.parents.items()}
        found = {OBJECT: None} if self.uses_object else {}
        while len(found) < len(above) + self.uses_object:
            found.update({t: p for t, p in above.items() if p is None or p in found})
        return found

    # Objects, predicates, functions

    def read_objects(self, found: Sequence[Form]) -> None:
        """Takes the objects; one of two types is of the narrower one."""
        for name, kind in [pair for form in found for pair in typed(form.rest())]:
            need_word(name, 'an object')
            own = self.type_of(kind)
            known = self.names.find('object', name.word)
            if known is None:
                known = self.names.declare('object', name)
                self.objects[known] = own
            elif self.fits(own, self.objects[known]):
                self.objects[known] = own
            elif not self.fits(self.objects[known], own):
                raise Refusal(name, f'`{name.raw}` has two types', 'Leave one of them out.')
        limits.at_most(limits.OBJECTS, len(self.objects), found[-1] if found else None,
                       'there are at most {} objects', 'Take a smaller problem.')

    def read_predicates(self, found: Sequence[Form]) -> None:
        """Takes the predicates."""
        for form in [f for section in found for f in section.rest()]:
            head = need_head(form, 'a predicate')
            if self.names.find('predicate', head.word) is not None or head.word == '=':
                if head.word == '=':
                    continue
                raise Refusal(head, f'the predicate `{head.raw}` stands twice', 'Take one away.')
            types = [self.argument_type(kind) for _, kind in typed(form.rest())]
            limits.at_most(limits.PREDICATE_ARGUMENTS, len(types), form,
                           'a predicate has at most {} arguments',
                           'Split it into predicates that share an argument.')
            self.predicates[self.names.declare('predicate', head)] = types
        limits.at_most(limits.PREDICATES, len(self.predicates), found[0] if found else None,
                       'there are at most {} predicates', 'Leave out those that nothing uses.')

    def read_functions(self, found: Sequence[Form], domain: Form) -> None:
        """Takes the functions whose values are objects, and those whose values are what actions cost."""
        for form, kind in [pair for section in found for pair in typed(section.rest())]:
            head = need_head(form, 'a function')
            if kind is None or kind.word == 'number':
                self.read_number(form, head, domain)
                continue
            types = [self.type_of(t) for _, t in typed(form.rest())]
            limits.at_most(limits.FUNCTION_ARGUMENTS, len(types), form,
                           'a function has at most {} arguments',
                           'Split it, or make a predicate of it.')
            result = self.type_of(kind)
            if not self.objects_of(result):
                raise Refusal(kind, f'no object has the type `{kind.raw}`, so `{head.raw}` has no '
                              'value', 'Declare an object of this type.')
            self.functions[self.names.declare('function', head)] = (types, result)
        limits.at_most(limits.FUNCTIONS, len(self.functions), found[0] if found else None,
                       'there are at most {} functions', 'Leave out those that nothing uses.')

    def read_number(self, form: Form, head: Form, domain: Form) -> None:
        """Refuses a function whose values are numbers, but the cost of a plan, and what an action adds to it."""
        if head.word == 'total-cost':
            return
        uses = [use for action in sections(domain, ':action') for use in uses_of(action, head.word)]
        if uses and all(uses):
            types = [self.type_of(kind) for _, kind in typed(form.rest())]
            limits.at_most(limits.PREDICATE_ARGUMENTS, len(types), form, 'a cost hangs on at most {} arguments',
                           'Make an action for each cost.')
            self.amounts[head.word] = Amounts(head, types)
        else:
            raise Refusal(head, f'`{head.raw}` is a number, and there are no numbers but costs',
                          'Use objects for the amounts, and facts such as `(next n1 n2)`.')

    def tell_amounts(self) -> List[Tuple[str, Tuple[str, ...]]]:
        """Declares for each cost that hangs on arguments a predicate, and gives the facts of all."""
        facts: List[Tuple[str, Tuple[str, ...]]] = []
        for amounts in self.amounts.values() if self.minimizes else ():
            for value in sorted(set(amounts.values.values())):
                name = self.names.extra('predicate', f'{fitting(amounts.form.word)}-{value}')
                self.predicates[name] = amounts.types
                amounts.predicates[value] = name
                facts += [(name, place) for place, own in amounts.values.items() if own == value]
            limits.at_most(limits.PREDICATES, len(self.predicates), amounts.form,
                           'there are at most {} predicates, with one for each cost', 'Take fewer different costs.')
        return facts

    # Asking

    def objects_of(self, wanted: str) -> List[str]:
        """The objects of a type and of those below it."""
        return [name for name, own in self.objects.items() if self.fits(own, wanted)]

    def tuples(self, types: Iterable[str]) -> Iterator[Tuple[str, ...]]:
        """All choices of objects of these types, in order."""
        return itertools.product(*(self.objects_of(t) for t in types))


def sections(definition: Form, head: str) -> List[Form]:
    """The sections of a domain or a problem with this head."""
    return [form for form in definition.rest() if form.head() == head]


def uses_of(form: Form, word: str) -> List[bool]:
    """For each place where a function stands whether it is an amount, `(increase (total-cost) (f ..))`."""
    if not form.is_list():
        return [False] if form.word == word else []
    if form.head() == 'increase' and len(form.parts) == 3 and form.parts[1].mentions(['total-cost']) \
            and form.parts[2].head() == word:
        return [True]
    return [use for part in form.parts for use in uses_of(part, word)]


def check_requirements(form: Form) -> None:
    """Refuses a requirement that isn't known here."""
    for word in form.rest():
        if word.word not in REQUIREMENTS:
            raise Refusal(word, f'the requirement `{word.text()}` isn\'t known here',
                          'Take it out, and what needs it.')


def need_word(form: Form, what: str) -> None:
    """Refuses a list, and a variable, where a name is wanted."""
    if form.is_list():
        raise Refusal(form, f'{what} is wanted here, and not a list', 'Write its name.')
    if form.is_variable():
        raise Refusal(form, f'{what} is wanted here, and not a variable', 'Write its name.')


def need_head(form: Form, what: str) -> Form:
    """The name with which a list begins."""
    if form.head() is None or form.head().startswith('?'):
        raise Refusal(form, f'{what} is wanted here', 'Write `(NAME ..)`.')
    return form.parts[0]


def refuse_either(form: Form) -> NoReturn:
    """Refuses several types in place of one."""
    raise Refusal(form, f'`{form.shown()}` is no type here',
                  'Give the types a parent, `a b - both`, and write the parent.')
