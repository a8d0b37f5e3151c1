"""Explains the codes of meaning, 200 to 211, and those of the world, 301 to 311."""

import re
from typing import Collection, Iterator, List, Optional, Tuple

from pkslib import Code, Form, Refusal, Text, limits

from . import grammar
from .names import Names, count, is_term, listed, near
from .shape import foreign

LIMITS = {
    'types': (limits.TYPES, 'types', 'leave out those that no object needs'),
    'objects': (limits.OBJECTS[1], 'objects', f'in version 2, `(pks 2)`, there may be {limits.OBJECTS[2]}; else leave out '
                               'those that play no part'),
    'predicates': (limits.PREDICATES, 'predicates', 'give one predicate an argument in place of several without'),
    'functions': (limits.FUNCTIONS, 'functions', 'give one function an argument in place of several without'),
    'domain': (limits.ACTIONS, 'actions', 'give one action a parameter in place of several without'),
    'params': (limits.PARAMETERS, 'parameters of an action', 'split the action in two, the first of which leaves '
                                             'a fact or a value for the second'),
    'pre': (limits.PRECONDITIONS, 'preconditions of an action', 'split the action, or set one fact for several'),
    'effects': (limits.EFFECTS, 'effects of an action', 'split the action; `clear` unsets many at once'),
    'senses': (limits.SENSES, 'senses of an action', 'split the action; `sense-all` senses many at once'),
    'knows': (limits.ADDS, 'adds of an action', 'split the action, or leave out what nothing asks for'),
    'goal': (limits.GOALS, 'queries of a goal', 'let a last action, whose preconditions are these queries, '
                                      'set one fact, and ask for that'),
    'kx': (limits.GROUP, 'literals of a group', 'use a function with these as its values, of which an object '
                                      'may have any number; or groups of groups'),
    'kw': (limits.CONDITION, 'literals of a formula', 'name a part of it by a predicate of its own'),
    'sense': (limits.CONDITION, 'literals of a sense', 'sense parts of it one by one'),
    'when': (limits.CONDITION, 'literals of a condition', 'name a part of it by a predicate of its own'),
    'if': (limits.CONDITION, 'queries of an `if`', 'put some of them into `pre`'),
    'predicate': (limits.PREDICATE_ARGUMENTS, 'arguments of a predicate', 'use two predicates, or a function for one of the '
                                                 'arguments'),
    'function': (limits.FUNCTION_ARGUMENTS, 'arguments of a function', 'use two functions, or one object for a pair'),
    'cost': (limits.COST, 'cost', 'give all costs in a larger unit'),
}


def explain(names: Names, form: Form, text: Text, refusal: Refusal) -> List[str]:
    """The sentences on a code of meaning or of the world."""
    by_code = {
        Code.LONG_NAME: lambda: [f'`{form.word[:20]}..` has {len(form.word.lstrip("?"))} bytes, and {limits.NAME_BYTES} '
                                 'are the most.'],
        Code.NOT_DECLARED: lambda: ['`not` is the word for a negated literal: take another name.'],
        Code.TWICE: lambda: twice(names, form, text),
        Code.UNDECLARED: lambda: undeclared(names, form),
        Code.WORLD_UNDECLARED: lambda: undeclared(names, form),
        Code.PARAMETER: lambda: parameter(names, form),
        Code.ARGUMENTS: lambda: arguments(names, form),
        Code.TYPE: lambda: types_of(names, form),
        Code.HEIGHT: lambda: height(names, form),
        Code.LIMIT: lambda: limit(names, form),
        Code.NO_VALUE: lambda: [f'No object has the type `{form.word}`'
                                + (' or one below it' if names.version == 2 else '')
                                + f', so this function has no value: declare one, `(objects ({form.word} ..))`.'],
        Code.GROUP: lambda: group(form),
        Code.WILDCARDS: lambda: wildcards(form),
        Code.WORLD_FACT: lambda: (arguments if form.is_list() else types_of)(names, form),
        Code.WORLD_NO_VALUE: lambda: missing_values(names),
        Code.WORLD_TWO_VALUES: lambda: [f'`{form.text()}` had a value before: a place has one value, so take one of the '
                                        'two away.'],
        Code.WORLD_MISSING: lambda: ['Add `(world (true ..) (values ..))` behind the problem; `tools/world` writes one.'],
        Code.WORLD_INCOMPATIBLE: lambda: item(names, int(refusal.rest.split()[-1])),
    }
    return by_code[refusal.code]()


def value_form(names: Names, place: Form) -> List[str]:
    """How a function's value is written where a list stands that looks like a fact of it."""
    types, verb = names.functions[place.head()][0], place.parent.head()
    parts = [p.text() for p in place.parts]
    own = '(' + ' '.join(parts[:1 + len(types)]) + ')'
    value = parts[1 + len(types)] if len(parts) > 1 + len(types) else 'VALUE'
    if verb == 'sense':
        return [f'A value is sensed by `(sense-value {own})`.']
    if verb == 'kw':
        return [f'That its value will be known is written `(kv {own})`.']
    if verb in ('set', 'unset'):
        return [f'A value is given by `(assign {own} {value})`.']
    if verb == 'lcw':
        return ['A closed world is of facts. What a value isn\'t is said for each object, `(kf (not (= PLACE OBJECT)))`; '
                'that it is one of some, `(kx (= PLACE OBJECT) ..)`.']
    if verb == 'sense-all':
        return ['Values are sensed one by one, `(sense-value PLACE)`.']
    if verb == 'clear':
        return ['A place always has a value: give it another one by `(assign PLACE TERM)`.']
    if verb == 'kf' and place.parent.parent.head() == 'knows' and len(parts) == 1 + len(types):
        return [f'That its value will be known is written `(kv {own})`, and what it is `(kf (= {own} {value}))`.']
    if verb == 'true':
        return [f'In a world its value stands in `(values ({own} {value}))`.']
    return [f'A literal about its value is `(= {own} {value})`.']


def fact_form(place: Form) -> List[str]:
    """How it is said of a fact that it will be known, or sensed, where it stands as a value."""
    verb = place.parent.head() if place.parent is not None else None
    if verb == 'kv':
        return [f'`kv` is of values; that it will be known whether a fact is so is `(kw {place.text()})`.']
    if verb == 'assign':
        return [f'A fact becomes true by `(set {place.text()})`, and false by `(unset {place.text()})`.']
    return [f'A fact is sensed by `(sense {place.text()})`.'] if verb == 'sense-value' else []


def undeclared(names: Names, form: Form) -> List[str]:
    """203 and 301."""
    word = form.word
    kind, known = kind_of(names, form)
    said = [f'`{word}` isn\'t declared as {kind} before this place. Declared: {listed(known)}.']
    same = next((name for name in known if name.lower() == word.lower()), None)
    is_value = grammar.role(form) == 'term' and word in names.functions
    close = None if is_value else same or near(word, known)
    if is_value:
        place = f'({" ".join([word] + names.functions[word][0])})'
        return said + [f'`{word}` is a function: its value is written `{place}`, in parentheses of its own'
                       + (', with its arguments.' if names.functions[word][0] else '.')]
    if close:
        said.append(f'Capital letters count: is `{close}` meant?' if same else f'Is `{close}` meant?')
    for other, table in (('a predicate', names.predicates), ('a function', names.functions),
                         ('an object', names.objects), ('a type', names.types)):
        if word in table and other != kind:
            said.append(f'There is {other} of that name, but here {kind} is wanted.')
            if (kind, other) == ('a predicate', 'a function'):
                said += value_form(names, form.parent)
            if (kind, other) == ('a function', 'a predicate'):
                said += fact_form(form.parent)
    said += foreign(form)
    if word in grammar.QUERIES + grammar.ITEMS and kind == 'a predicate':
        inner = form.parent.rest()[0].text() if form.parent.rest() else '..'
        said.append(f'Here stands a literal alone, which is about the world and not about what is '
                    f'known: write `{inner}`.')
    outside = grammar.turned_out(form.parent)
    if outside:
        said.append(f'`{word}` stands around a query, and not within one: write `{outside}`.')
    if kind == 'a type' and grammar.role(form.parent) in ('predicates', 'functions'):
        said.append(f'Behind the name `{form.parent.head()}` stand the types of its arguments'
                    + (', and last that of its value.' if grammar.role(form.parent) == 'functions' else '.'))
    return said


def kind_of(names: Names, form: Form) -> Tuple[str, Collection[str]]:
    """What is wanted where a word stands, and the names of that kind."""
    parent = form.parent
    own = grammar.role(parent) if parent is not None and parent.parent is not None else None
    if own in ('kind', 'objects', 'predicates', 'functions', 'parameter'):
        return 'a type', names.types
    if form.index() == 0 and parent.is_list() and own != 'value':
        if is_term(parent) or is_value_place(parent):
            return 'a function', names.functions
        return 'a predicate', names.predicates
    return 'an object', names.objects


def is_value_place(form: Form) -> bool:
    """Whether a fact of the world is the place of a value."""
    return (form.parent is not None and form.parent.parent is not None
            and form.parent.parent.head() == 'values' and form.index() == 0)


def parameter(names: Names, form: Form) -> List[str]:
    """204."""
    action = names.action_of(form)
    if action is None:
        return ['A parameter stands outside of an action, where only objects may stand.']
    own = names.params(action)
    name = action.parts[1].text()
    said = [f'`{form.word}` isn\'t among the params of the action `{name}`, which are: '
            f'{listed(own)}.']
    types = names.signature(form.parent)[1] or [] if form.parent is not None else []
    wanted = types[form.index() - 1] if 0 < form.index() <= len(types) else None
    here = {part.word for part in form.parent.parts}
    close = near(form.word, own) or next((p for p, kind in own.items() if kind == wanted and p not in here), None)
    of_type = f', which is of the type `{wanted}` that is wanted here' if close and own[close] == wanted else ''
    said.append(f'Is `{close}` meant{of_type}, or is' if close else 'Is')
    said[-1] += f' `({form.word} {wanted or "TYPE"})` missing in its `params`?'
    return said


def arguments(names: Names, form: Form) -> List[str]:
    """205, and 302 at a list."""
    if is_value_place(form):
        kind, types = 'function', names.functions.get(form.head(), ([], None))[0]
    else:
        kind, types = names.signature(form)
    types = types or []
    declared = '(' + ' '.join([form.head() or '?'] + types) + ')'
    if kind == 'function' and len(form.rest()) > len(types):
        own = '(' + ' '.join([form.head()] + types + [names.functions[form.head()][1] or '?']) + ')'
        return [f'`{form.text()}` has {count(len(form.rest()), "argument")}, and the function `{form.head()}` has '
                f'{count(len(types), "argument")}: in `{own}` the last type is that of the value. Was the type of its value '
                'forgotten there?']
    return [f'`{form.text()}` has {count(len(form.rest()), "argument")}; the {kind} '
            f'`{form.head()}` has {count(len(types), "argument")}: it is declared as `{declared}`.']


def types_of(names: Names, form: Form) -> List[str]:
    """206, and 302 at a word."""
    parent, action = form.parent, names.action_of(form)
    own = names.type_of(form, action)
    if parent.head() == '=':
        left = parent.parts[1]
        return [f'The sides of an equation must have one type'
                + (' (or one type below the other)' if names.version == 2 else '')
                + f': `{left.text()}` is of type `{names.type_of(left, action)}`, '
                  f'`{form.text()}` of type `{own}`.']
    if parent.head() == 'assign' and form.index() == 2:
        place = parent.parts[1]
        return [f'`{place.text()}` has values of type `{names.type_of(place, action)}`, and '
                f'`{form.text()}` is of type `{own}`.']
    if parent.parts[0].is_list():
        place = parent.parts[0]
        return [f'`{place.text()}` has values of type `{names.type_of(place, action)}`, and '
                f'`{form.text()}` is of type `{own}`.']
    types = (names.functions.get(parent.head(), ([], None))[0] if is_value_place(parent)
             else names.signature(parent)[1]) or []
    at = form.index()
    wanted = types[at - 1] if at - 1 < len(types) else '?'
    said = [f'`{form.text()}` is of type `{own}`; argument {at} of `{parent.head()}` must be of '
            f'type `{wanted}`: it is declared as `({" ".join([parent.head()] + types)})`.']
    given = [names.type_of(p, action) for p in parent.rest()]
    if sorted(map(str, given)) == sorted(map(str, types)):
        said.append('The arguments seem to stand in another order than declared.')
    if names.version == 1 and wanted in names.types:
        said.append('In version 1 a type fits itself alone; in version 2 a type may have a parent, '
                    '`(types thing (item thing))`, and fits it.')
    return said


def levels(form: Form) -> int:
    """The height of a term: 0 of an object, 1 of a parameter, and of a place one more than that of its arguments."""
    if form.word:
        return 1 if grammar.is_var(form) else 0
    return 1 + max(map(levels, form.rest()), default=0)


def inner_of(form: Form) -> Optional[Form]:
    """The greatest term within one that is too high which isn't too high itself, and stands within another list."""
    part = max(form.rest(), key=levels, default=None)
    while part is not None and levels(part) > 2:
        part = max(part.rest(), key=levels, default=None)
    return part if part is not None and part.is_list() else None


def named_after(names: Names, kind: str, action: Form) -> str:
    """A parameter that the action doesn't have, named after its type."""
    taken = names.params(action)
    choices = [f'?{kind[0]}', f'?{kind}', *(f'?{kind[0]}{number}' for number in range(2, 10))]
    return next(name for name in choices if name not in taken)


def height(names: Names, form: Form) -> List[str]:
    """207."""
    inner, action = inner_of(form), names.action_of(form)
    parameter = re.search(r'\?[^ )]+', form.text())
    said = [f'`{parameter.group()}` may itself be a value, so `{form.text()}` may be three values within each other, '
            'and two are the most.' if parameter else
            f'`{form.text()}` has more than two values within each other, and two are the most.']
    if inner is None or action is None or len(names.params(action)) >= limits.PARAMETERS:
        return said + ['Let an action assign the inner value to a function of its own, and write that here.']
    kind = names.functions[str(inner.head())][1]
    name = named_after(names, kind, action)
    return said + [f'Take a parameter more, `({name} {kind})`, ask `(k (= {name} {inner.text()}))` in `pre`, and write '
                   f'`{form.text().replace(inner.text(), name)}` here.']


def limit(names: Names, form: Form) -> List[str]:
    """208."""
    parent = form.parent
    head = parent.head()
    own = grammar.role(parent) if parent.parent is not None else None
    if own in ('predicates', 'functions') and form.index() > 0:
        key = 'predicate' if own == 'predicates' else 'function'
    elif own in ('predicates', 'functions', 'objects', 'kind', 'parameter'):
        key = {'kind': 'types', 'parameter': 'params'}.get(own, own)
    elif own == 'literals':
        key = 'when'
    elif own == 'queries':
        key = 'if'
    elif head == 'action' and form.index() == 1:
        key = 'domain'
    else:
        key = head
    if key not in LIMITS:
        return ['A limit of docs/FORMAT.md section 3 is passed here.']
    most, what, cure = LIMITS[key]
    if key == 'objects' and names.version == 2:
        most = limits.OBJECTS[2]
    return [f'This is the first one past a limit: there may be {most} {what} at most.' if key != 'cost'
            else f'A cost may be {limits.COST:,} at most.', f'What to do: {cure}.']


def group(form: Form) -> List[str]:
    """210."""
    return [f'`{form.text()}` stands in this group twice. Of a group exactly one member is true, '
            'and members are counted by their places: take one away.']


def wildcards(form: Form) -> List[str]:
    """211."""
    return [f'A pattern may have two wildcards: in `{form.parent.text()}` write an object or a '
            'parameter in place of one.']


def twice(names: Names, form: Form, text: Text) -> List[str]:
    """202."""
    first = next((f for f in words_like(names.domain, form)), None)
    line = f', in line {text.place(first.start)[0]}' if first else ''
    return [f'`{form.word}` was declared before{line}. Give one of the two another name, or take '
            'one away.']


def words_like(root: Optional[Form], form: Form) -> Iterator[Form]:
    """Earlier words of the same spelling in the same section and role."""
    section = form
    while section.parent is not None and section.parent.head() != 'domain':
        section = section.parent
    scope = names_scope(form, section)
    stack = [scope]
    while stack:
        top = stack.pop()
        if top.word == form.word and top.start < form.start:
            yield top
        stack += reversed(top.parts or [])


def names_scope(form: Form, section: Form) -> Form:
    """The list within which the name at a form is declared but once."""
    if grammar.role(form.parent) == 'parameter':
        return form.parent.parent
    return section.parent if section.head() == 'action' else section


# The world

def missing_values(names: Names) -> List[str]:
    """303."""
    have = {v.parts[0].text() for v in names.section(names.world, 'values')
            if v.is_list() and v.parts}
    lacks = [p for p in names.places() if p not in have]
    said = [f'The world must give every place a value; without one: {listed(lacks)}.']
    if lacks:
        name = lacks[0].strip('()').split(' ')[0]
        first = next(iter(names.of_type(names.functions[name][1])), 'OBJECT')
        said.append(f'Add to `values`, for example: `({lacks[0]} {first})`.')
    return said


def item(names: Names, number: int) -> List[str]:
    """311: what the item is, and why the world breaks it."""
    items = names.init()
    if number > len(items):
        return ['The world breaks an item of `init`.']
    form = items[number - 1]
    true = {f.text() for f in names.section(names.world, 'true')}
    said = [f'Item {number} of `init` is `{form.text()}`, and it isn\'t so in this world.']
    if form.head() == 'kf':
        said.append(literal_in_world(form.rest()[0], true))
    elif form.head() == 'kx':
        held = [m.text() for m in form.rest() if holds(m, true)]
        said.append('Of a group exactly one member must be true; true here: '
                    f'{listed(held)}.')
    elif form.head() == 'lcw':
        said.append('Each true atom that meets the pattern must stand in `init` as '
                    f'`(kf ..)`: look at the atoms of `{form.rest()[0].head()}` in `true`.')
    return said + ['Change the world, or what `init` says.']


def holds(literal: Form, true: Collection[str]) -> bool:
    """Whether a literal without functions is true where these atoms are."""
    if literal.head() == 'not':
        return not holds(literal.rest()[0], true)
    return literal.text() in true


def literal_in_world(literal: Form, true: Collection[str]) -> str:
    """Where in the world to look for a literal of `init`."""
    atom = literal.rest()[0] if literal.head() == 'not' else literal
    if atom.head() == '=':
        return 'Look at the values that `values` gives to its terms.'
    if literal.head() == 'not':
        return f'`{atom.text()}` must not stand in `true`.'
    return f'`{atom.text()}` doesn\'t stand in `true`, and what isn\'t listed there is false.'
