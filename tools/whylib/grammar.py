"""What may stand where: the grammar by the enclosing list, in the user's words."""

from typing import List, Optional

from pkslib import NAME, VARIABLE, Form, limits

SECTIONS = {
    'domain': ['types', 'objects', 'predicates', 'functions', 'action'],
    'action': ['cost', 'params', 'pre', 'effects', 'senses', 'knows'],
    'problem': ['init', 'goal'],
    'world': ['true', 'values'],
}
QUERIES = ['k', 'kw', 'kv']
ITEMS = ['kf', 'kw', 'kv', 'lcw']
TARGETS = ['set', 'unset', 'clear', 'assign']
AIMS = ['at-start', 'always', 'once']
SENSES = ['sense', 'sense-value', 'sense-all']
HEADS = QUERIES + ITEMS + TARGETS + AIMS + SENSES + ['when', 'if', 'kx', 'not-derived'] + [
    head for section in SECTIONS.values() for head in section] + list(SECTIONS)

EXAMPLES = {
    'query': '`(k LITERAL)`, `(kw LITERAL ..)`, `(kv TERM)`, or one of these in `(not-derived ..)`',
    'plain': '`(k LITERAL)`, `(kw LITERAL ..)` or `(kv TERM)`',
    'aim': '`(k LITERAL)`, `(kw LITERAL ..)`, `(kv TERM)`, and in version 2 one of these in '
           '`(at-start ..)`, `(always ..)` or `(once ..)`',
    'effect': '`(set ATOM)`, `(unset ATOM)`, `(clear PATTERN)`, `(assign PLACE TERM)`, or one '
              'of these in `(when (LITERAL ..) ..)`',
    'target': '`(set ATOM)`, `(unset ATOM)`, `(clear PATTERN)` or `(assign PLACE TERM)`',
    'sense': '`(sense LITERAL ..)`, `(sense-value PLACE)` or `(sense-all PATTERN)`',
    'add': '`(kf LITERAL)`, `(kw LITERAL ..)`, `(kv PLACE)`, `(lcw PATTERN)`, or one of these '
           'in `(if (QUERY ..) ..)`',
    'item': '`(kf LITERAL)`, `(kw LITERAL ..)`, `(kv PLACE)` or `(lcw PATTERN)`',
    'start': '`(kf LITERAL)`, `(kw LITERAL ..)`, `(kv PLACE)`, `(lcw PATTERN)` or '
             '`(kx LITERAL LITERAL ..)`',
    'literal': 'a literal: `(p t ..)`, `(= t u)`, or one of these in `(not ..)`',
    'atom': 'an atom: `(p t ..)` with a predicate, no `not` and no `=`',
    'pattern': 'a pattern: `(p t ..)` with `_` at one or two places',
    'place': 'a place: `(f t ..)` with a function',
    'term': 'a term: an object, a parameter `?x`, or `(f t ..)`',
    'name': 'a name: a letter, then letters, digits, `-` or `_`',
    'parameter': 'a parameter with its type, `(?x type)`',
    'kind': 'a type, or in version 2 a type with its parent, `(room place)`',
    'objects': 'a type with its objects, `(room hall kitchen)`',
    'predicates': 'a predicate with the types of its arguments, `(in item room)`',
    'functions': 'a function with the types of its arguments and of its value last, '
                 '`(loc item room)`',
    'fact': 'a fact: `(p a ..)` with objects alone',
    'value': 'a place and its value, `((loc cup) hall)`',
    'number': f'a number from 1 to {limits.COST:,}',
    'literals': 'a list of literals, `((p) (not (q)))`: two parentheses also where it is one',
    'queries': 'a list of queries, `((k (p)))`: two parentheses also where it is one',
}

# Of each head the kinds of its parts; the last one may come again where `many` says so.
PARTS = {
    'types': ['kind'], 'objects': ['objects'], 'predicates': ['predicates'],
    'functions': ['functions'], 'params': ['parameter'], 'pre': ['query'],
    'effects': ['effect'], 'senses': ['sense'], 'knows': ['add'], 'init': ['start'],
    'goal': ['aim'], 'cost': ['number'], 'true': ['fact'], 'values': ['value'],
    'set': ['atom'], 'unset': ['atom'], 'clear': ['pattern'], 'assign': ['place', 'term'],
    'when': ['literals', 'target'], 'sense': ['literal'], 'sense-value': ['place'],
    'sense-all': ['pattern'], 'if': ['queries', 'item'], 'kf': ['literal'], 'kw': ['literal'],
    'lcw': ['pattern'], 'kx': ['literal'], 'k': ['literal'], 'not-derived': ['plain'],
    'at-start': ['plain'], 'always': ['plain'], 'once': ['plain'], 'not': ['literal'],
}
SHAPES = {
    'assign': '`(assign PLACE TERM)`: a place and its new value',
    'when': '`(when (LITERAL ..) TARGET)`: a list of conditions and one effect',
    'if': '`(if (QUERY ..) ITEM)`: a list of queries and one item',
    'kf': '`(kf LITERAL)`: one literal', 'k': '`(k LITERAL)`: one literal',
    'kv': '`(kv TERM)`: one term', 'kx': '`(kx LITERAL LITERAL ..)`: two literals or more',
    'kw': '`(kw LITERAL ..)`: one literal or more',
    'sense': '`(sense LITERAL ..)`: one literal or more',
    'sense-value': '`(sense-value PLACE)`: one place',
    'sense-all': '`(sense-all PATTERN)`: one pattern', 'lcw': '`(lcw PATTERN)`: one pattern',
    'set': '`(set ATOM)`: one atom', 'unset': '`(unset ATOM)`: one atom',
    'clear': '`(clear PATTERN)`: one pattern', 'cost': '`(cost NUMBER)`: one number',
    'not-derived': '`(not-derived QUERY)`: one query without `not-derived`',
    'at-start': '`(at-start QUERY)`: one query', 'always': '`(always QUERY)`: one query',
    'once': '`(once QUERY)`: one query', 'goal': '`(goal AIM ..)`: one aim or more',
    '=': '`(= TERM TERM)`: two terms', 'not': '`(not ATOM)` or `(not (= TERM TERM))`',
    'problem': '`(problem (init ..) (goal ..))`: a goal is needed',
    'action': '`(action NAME ..)`: a name first',
}
PLURAL = {'when': 'literals', 'if': 'queries'}


def role(form: Form) -> Optional[str]:
    """What kind of form stands at this place, by the enclosing lists; or None."""
    parent = form.parent
    if parent is None:
        return None
    at = form.index()
    head = parent.head()
    own = role_of_list(parent)
    if own in ('literals', 'queries'):
        return 'literal' if own == 'literals' else 'query'
    if own in ('literal', 'atom', 'place', 'pattern', 'term'):
        if at == 0:
            return 'name'
        return 'literal' if head == 'not' and own == 'literal' else 'term'
    if own in ('fact', 'kind', 'objects', 'predicates', 'functions'):
        return 'name'
    if own == 'value':
        return ['fact', 'name'][min(at, 1)]
    if own == 'parameter':
        return ['parameter', 'name'][min(at, 1)]
    if at == 0:
        return 'name'
    if head in SECTIONS:
        return 'name' if head == 'action' and at == 1 else 'section'
    if head == 'kv':
        return 'place' if own in ('add', 'item', 'start') else 'term'
    kinds = PARTS.get(head)
    return kinds[min(at - 1, len(kinds) - 1)] if kinds else None


def role_of_list(form: Form) -> Optional[str]:
    """The same of a list that may stand in no other."""
    return role(form) if form.parent is not None else None


def is_literal(form: Form) -> bool:
    """Whether a form looks like a literal: a list with a NAME, `not` or `=` first."""
    return bool(form.is_list() and form.parts and form.parts[0].word
                and (NAME.match(form.parts[0].word) or form.parts[0].word == '='))


def allowed(kind: Optional[str]) -> Optional[List[str]]:
    """The heads that a list of this kind may have, where the grammar fixes them."""
    return {'query': QUERIES + ['not-derived'], 'plain': QUERIES, 'aim': QUERIES + AIMS,
            'effect': TARGETS + ['when'], 'target': TARGETS, 'sense': SENSES,
            'add': ITEMS + ['if'], 'item': ITEMS, 'start': ITEMS + ['kx']}.get(kind)


def order_fault(form: Form) -> Optional[str]:
    """Why a section with a right head is wrong at its place."""
    parent, head = form.parent, form.head()
    order = SECTIONS[parent.head()]
    before = [p.head() for p in parent.parts[1:form.index()] if p.is_list()]
    if head in before and head != 'action':
        return f'`{head}` stands twice here; put both into one section.'
    later = [h for h in before if h in order and order.index(h) > order.index(head)]
    if later:
        return (f'`{head}` must stand before `{later[0]}`. The order is: '
                + ', '.join(f'`{h}`' for h in order) + '.')
    return None


def version_hint(form: Form, version: int) -> Optional[str]:
    """What is said of a form of version 2 in a file of version 1."""
    head = form.head()
    if version == 1 and (head in AIMS or head == 'cost'):
        return f'`{head}` is of version 2: begin the file with `(pks 2)`.'
    if version == 1 and form.is_list() and role(form) == 'kind':
        return 'A type with a parent is of version 2: begin the file with `(pks 2)`.'
    return None


def turned_out(form: Form) -> Optional[str]:
    """Of `(k (at-start (p)))`, whose inner list is given, `(at-start (k (p)))`; None where nothing is to be turned."""
    query, inner = form.parent, form.rest()
    if query is None or query.head() not in QUERIES or len(inner) != 1:
        return None
    if form.head() not in (AIMS if role(query) == 'aim' else ['not-derived'] if role(query) == 'query' else []):
        return None
    return f'({form.head()} ({query.head()} {inner[0].text()}))'


def is_var(form: Form) -> bool:
    """Whether a form is a parameter."""
    return bool(form.word and VARIABLE.match(form.word))


def is_name(form: Form) -> bool:
    """Whether a form is a name."""
    return bool(form.word and NAME.match(form.word))
