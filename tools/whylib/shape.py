"""Explains the codes of shape: 120 to 124, and 300 for the world."""

from typing import Iterator, List, Optional, Sequence, Tuple

from pkslib import VARIABLE, Code, Form, Text, gained_parenthesis, limits, lost_parenthesis

from . import grammar
from .names import Names, count, near

Place = Tuple[Form, int]
"""A list, and the number of a line."""

FOREIGN = {
    'and': 'There is no `and`: the parts simply stand one behind the other.',
    'or': 'There is no `or`. Make two actions of it; of what is exactly one of several, `(kx ..)`.',
    'forall': 'There is no `forall`. `(clear (p _))` unsets all, `(sense-all (p _))` senses all; '
              'else write one form for each object.',
    'exists': 'There is no `exists`: make it a parameter of the action.',
    'imply': 'There is no `imply`.',
    'oneof': '`oneof` is `(kx ..)` here, in `init`.',
    'unknown': 'What isn\'t listed is unknown: leave it out.',
    'observe': '`observe` is `(sense ..)` in `senses`, with `(kw ..)` in `knows`.',
    'precondition': '`precondition` is `pre` here, and its parts are queries such as `(k (p))`.',
    'preconditions': '`preconditions` is `pre` here, and its parts are queries such as `(k (p))`.',
    'parameters': '`parameters` is `params` here: `(params (?x type) ..)`.',
    'effect': '`effect` is `effects` here: `(effects (set (p)) ..)`.',
    'constants': '`constants` is `objects` here, in the domain.',
    'requirements': 'There is no `requirements`; `(pks 2)` in place of `(pks 1)` gives costs, '
                    'parents of types and aims over time.',
    'not-k': 'To ask that something isn\'t known write `(not-derived (k ..))`.',
    'define': 'There is no `define`: write `(domain ..)` and then `(problem ..)`, without names.',
    'increase': 'There are no numbers, and nothing is counted up: take objects for the amounts, and facts such as '
                '`(less n1 n2)`. What an action costs is `(cost 3)`, in version 2.',
    'decrease': 'There are no numbers, and nothing is counted down: take objects for the amounts, and facts such as '
                '`(less n1 n2)`.',
    'toggle': 'There is no `toggle`: what is true becomes false, and what is false true, by two effects, '
              '`(when ((p)) (unset (p)))` and `(when ((not (p))) (set (p)))`.',
    'number': 'There are no numbers: take objects for the levels, of a type of their own.',
    'probabilistic': 'There are no chances: what may turn out in two ways is a fact that isn\'t known, under a `when`.',
}

IN_GOALS = {
    'or': 'There is no `or` in a goal: write an action for each way that sets a fact, with what that way asks for in '
          'its `pre`; the goal asks for that fact.',
    'forall': 'There is no `forall`: in the goal write one query for each object.',
    'exists': 'There is no `exists`: write an action with it as a parameter that sets a fact, with what is asked for '
              'in its `pre`; the goal asks for that fact.',
    'if': 'A goal has no conditions: give an action, for each thing `?i` that the goal is about, the effect '
          '`(when (CONDITION) (set (done ?i)))` with the add `(if ((k CONDITION)) (kf (done ?i)))`; the goal asks for '
          '`(k (done ..))`. docs/GUIDE.md has an example, *A goal under a condition*.',
}
IN_GOALS['imply'] = IN_GOALS['when'] = IN_GOALS['if']


WHERE = {
    'if': 'in `knows`, and not within another `if`: put all queries into one list',
    'when': 'in `effects`, and not within another `when`: put all conditions into one list',
    'not-derived': 'in `pre` and in the list of an `if`, and not within another',
    'kx': 'in `init`', 'lcw': 'in `knows` and `init`', 'kf': 'in `knows` and `init`',
    'k': 'in `pre`, in `goal` and in the list of an `if`',
    'set': 'in `effects`', 'unset': 'in `effects`', 'clear': 'in `effects`',
    'assign': 'in `effects`', 'sense': 'in `senses`', 'sense-value': 'in `senses`',
    'sense-all': 'in `senses`', 'at-start': 'in `goal`', 'always': 'in `goal`',
    'once': 'in `goal`',
}


def is_pddl(text: Text) -> bool:
    """Whether a file is one in PDDL: it begins with `define`, and has words with a colon."""
    return bool(text.forms) and text.forms[0].head() == 'define' and any(
        form.parts and form.parts[0].word == ':' for form in text.lists)


def shape(text: Text, form: Optional[Form], names: Names) -> List[str]:
    """What is said of a form at which the walk over the grammar stopped."""
    if form is None:
        return ['The text ends where a form is missing.']
    if form.parent is None:
        return top(form)
    hint = grammar.version_hint(form, names.version)
    if hint:
        return [hint]
    parts = bare_hint(form, names) if form.is_list() else None
    parts = parts or wrong_number(form)
    if parts:
        return parts
    said = specific(form, names) or []
    return said if says_all(said) else said + expected(form, bool(said))


def says_all(said: Sequence[str]) -> bool:
    """Whether a hint shows the whole form that should stand here."""
    whole = ('One pair of', 'The value of a place', 'A value is given', 'Predicates and functions',
             'The type of a value')
    return any(text.startswith(whole) for text in said)


def wrong_number(form: Form) -> Optional[List[str]]:
    """For a list whose head is right at its place: it has too few parts, or too many."""
    head, heads = form.head(), grammar.allowed(grammar.role(form))
    if grammar.role(form) == 'section':
        right = head in grammar.SECTIONS[form.parent.head()] and not grammar.order_fault(form)
        return number(form) if right else None
    if heads and head in heads or head in ('=', 'not') and grammar.role(form) == 'literal':
        return number(form)
    return None


TOPS = ('pks', 'domain', 'problem', 'world', 'define')
BEGINNINGS = (Code.VERSION, Code.DOMAIN, Code.PROBLEM, Code.WORLD)


def top(form: Form) -> List[str]:
    """What is said of a form that stands in no list."""
    head = form.head()
    if head in grammar.SHAPES:
        lacks = lacking(form)
        return lacks or [f'A list `({head} ..)` is {grammar.SHAPES[head]}.']
    return [f'`({head} ..)` is incomplete.' if head else 'Here a list must stand.']


def lacking(form: Form) -> Optional[List[str]]:
    """For a list that fails for the number of its parts."""
    head = form.head()
    if head == 'problem':
        heads = [p.head() for p in form.parts[1:]]
        if 'goal' not in heads:
            return ['The problem has no `(goal ..)`; it needs one, behind `init`.']
    return None


def expected(form: Form, hinted: bool) -> List[str]:
    """What may stand at a place; nothing more where a hint was given and no example is there."""
    kind = grammar.role(form)
    parent = form.parent
    if kind == 'section':
        order = ', '.join(f'`({h} ..)`' for h in grammar.SECTIONS[parent.head()])
        where = 'the action' if parent.head() == 'action' else f'`{parent.head()}`'
        return [f'In {where} there may stand, in this order: {order}.']
    if kind in grammar.EXAMPLES:
        where = f', in `({parent.head()} ..)`,' if parent.head() else ''
        return [f'Here{where} there may stand: {grammar.EXAMPLES[kind]}.']
    return [] if hinted else ['This form isn\'t what the grammar has here.']


def specific(form: Form, names: Names) -> Optional[List[str]]:
    """A hint for this very form, or None."""
    kind, head = grammar.role(form), form.head()
    if grammar.role(form.parent) == 'fact' and form.parent.head() == 'not':
        return ['A world lists what is true; what isn\'t listed is false, so leave this out.']
    if kind == 'value' and head == '=' and len(form.rest()) == 2:
        place, value = form.parts[1].text().strip('()'), form.parts[2].text()
        return [f'The value of a place is written `(({place}) {value})` here, without `=`.']
    if kind == 'section' and head in grammar.SECTIONS[form.parent.head()]:
        return [grammar.order_fault(form)]
    if kind == 'section' and head and head.lower() in grammar.SECTIONS[form.parent.head()]:
        return [f'Capital letters count: write `{head.lower()}`.']
    if foreign(form):
        return foreign(form)
    if kind == 'section' and (form.parent.head(), head) in (('problem', 'world'), ('domain', 'problem')):
        return [f'`({head} ..)` stands behind `({form.parent.head()} ..)`, and not within it.']
    if kind == 'section' and form.parent.head() == 'problem' and head in grammar.SECTIONS['domain']:
        before = grammar.SECTIONS['domain'][:grammar.SECTIONS['domain'].index(head)]
        return [f'`{head}` stands in the domain' + (f', behind `{before[-1]}`.' if before else '.')]
    if kind == 'section' and head in WHERE:
        return belongs(head, [])
    heads = grammar.allowed(kind)
    if heads and head:
        return swapped(form, kind) or belongs(head, heads, kind) or looks_like(form, kind, heads, names)
    return bare_hint(form, names) or literal_hint(form, kind, names) or word_hint(form, kind) or list_hint(form, kind)


def foreign(form: Form) -> List[str]:
    """What is said of a word of another language; in a goal also of those that stand within its list."""
    head = (form.head() or form.word or '').lower()
    if not is_in_goal(form):
        return [FOREIGN[head]] if head in FOREIGN else []
    if head not in IN_GOALS and head not in FOREIGN:
        return []
    known = {head: FOREIGN.get(head, ''), **IN_GOALS}
    return list(dict.fromkeys(known[word] for word in heads_within(form) if word in known))


def is_in_goal(form: Form) -> bool:
    """Whether a form stands in the goal."""
    above = form.parent
    while above is not None and above.head() != 'goal':
        above = above.parent
    return above is not None


def heads_within(form: Form) -> Iterator[str]:
    """The word of a form, or the heads of a list and of all lists within it, in small letters."""
    head = form.word or form.head()
    if head:
        yield head.lower()
    for part in form.parts:
        if part.is_list():
            yield from heads_within(part)


def belongs(head: str, heads: Sequence[str], kind: Optional[str] = None) -> Optional[List[str]]:
    """Where a head may stand that is wrong here, or the head that looks like it."""
    if head.lower() in heads:
        return [f'Capital letters count: write `{head.lower()}`.']
    if head not in WHERE:
        return None
    asked = [] if head != 'lcw' or kind not in QUERIES else [
        'No query asks for a closed world: ask of each fact that it is known to be false, `(k (not (p a)))`.']
    return [f'`{head}` may stand only {WHERE[head]}.'] + asked


def looks_like(form: Form, kind: str, heads: Sequence[str], names: Names) -> Optional[List[str]]:
    """For a list that may be a literal, or have a misspelled head."""
    said = literal_hint(form, kind, names) or []
    close = near(form.head(), heads)
    if close and len(form.head()) > 2:
        said = [f'Is `{close}` meant in place of `{form.head()}`?'] + said
    return said or None


QUERIES = ('query', 'plain', 'aim')
"""The kinds of forms that ask."""

SWAPS = {('add', 'k'): 'kf', ('item', 'k'): 'kf', ('start', 'k'): 'kf', ('query', 'kf'): 'k',
         ('plain', 'kf'): 'k', ('aim', 'kf'): 'k', ('sense', 'k'): 'sense',
         ('sense', 'kw'): 'sense', ('sense', 'kv'): 'sense-value'}


def is_sensed(form: Form, inner: str) -> bool:
    """Whether the action in which a form stands senses this."""
    action = form
    while action is not None and action.head() != 'action':
        action = action.parent
    senses = [part for part in action.parts if part.head() == 'senses'] if action is not None else []
    return any(' '.join(p.text() for p in sense.rest()) == inner for part in senses for sense in part.rest())


def swapped(form: Form, kind: str) -> Optional[List[str]]:
    """For a head that has another one's meaning here."""
    own = SWAPS.get((kind, form.head()))
    if own is None:
        return None
    inner = ' '.join(p.text() for p in form.rest())
    if own == 'kf' and kind == 'add' and is_sensed(form, inner):
        return [f'Here it is `(kw {inner})`: `k` asks whether something is known, and what the action senses may come '
                'out either way, so it is told by `kw`.']
    why = ('`k` asks whether something is known, `kf` tells that it is.'
           if kind != 'sense' else 'a sense finds out, and `knows` tells of it.')
    return [f'Here it is `({own} {inner})`: {why}']


def bare_hint(form: Form, names: Names) -> Optional[List[str]]:
    """Where a literal lacks its parentheses within the list in which it stands."""
    around = form if form.is_list() else form.parent
    literal = names.bare(around) if around is not None else None
    return [f'The literal needs parentheses of its own: `({around.head()} {literal})`.'] if literal else None


def literal_hint(form: Form, kind: Optional[str], names: Names) -> Optional[List[str]]:
    """Where a literal stands and a query, an effect, a sense or an item should."""
    head = form.head()
    if kind in (*QUERIES, 'start', 'add', 'item') and head in ('knows', 'known'):
        inner = ' '.join(p.text() for p in form.rest()) or '..'
        own = 'k' if kind in QUERIES else 'kf'
        return [f'That something is known is written `({own} {inner})`.']
    if kind in QUERIES and head == 'not' and form.rest() and form.rest()[0].head() not in grammar.QUERIES:
        inner = form.rest()[0].text()
        return [f'To ask that it is known to be false write `(k (not {inner}))`'
                + (f'; to ask that it isn\'t known to be true, `(not-derived (k {inner}))`.' if kind == 'query' else '.')]
    if kind in QUERIES and head == 'not':
        inner = form.rest()[0].text() if form.rest() else '..'
        known = form.rest()[0].rest()[0].text() if form.rest() and form.rest()[0].rest() else '..'
        return [f'To ask that it is known to be false write `(k (not {known}))`'
                + (f'; to ask that it isn\'t known, `(not-derived {inner})`.' if kind == 'query' else
                   '. That something isn\'t known can\'t be asked for here.')]
    if kind in ('effect', 'target') and head == 'not':
        inner = form.rest()[0].text() if form.rest() else '..'
        return [f'To make an atom false write `(unset {inner})`.']
    if kind == 'atom' and head == 'not':
        inner = form.rest()[0].text() if form.rest() else '..'
        return [f'`set` makes true and `unset` makes false: write `(unset {inner})`.']
    if kind == 'sense' and head in names.functions and head not in names.predicates:
        return [f'A value is sensed by `(sense-value {form.text()})`.']
    wraps = {'query': 'k', 'plain': 'k', 'aim': 'k', 'effect': 'set', 'target': 'set',
             'sense': 'sense', 'add': 'kf', 'item': 'kf', 'start': 'kf'}
    valued = names.valued(form)
    if kind in ('effect', 'target') and valued:
        return ['A value is given by `(assign {} {})`.'.format(*valued)]
    if kind in wraps and valued:
        return ['A value alone stands here; write `({} (= {} {}))`.'.format(wraps[kind], *valued)]
    if kind in wraps and grammar.is_literal(form):
        return [f'A literal alone stands here; write `({wraps[kind]} {form.text()})`.']
    return None


def word_hint(form: Form, kind: Optional[str]) -> Optional[List[str]]:
    """Where a word stands: too few parentheses, or no name."""
    word = form.word
    if not word:
        return None
    own = grammar.role_of_list(form.parent)
    if own in ('literals', 'queries'):
        return [f'One pair of parentheses is missing: `({form.parent.text()})`. Here stands '
                f'{grammar.EXAMPLES[own]}.']
    if kind == 'section' and form.index() == 1 and form.parent.head() in ('domain', 'problem'):
        return [f'A {form.parent.head()} has no name here: leave `{word}` out.']
    if word == '=' and own in ('atom', 'fact'):
        place, value = [p.text() for p in form.parent.rest()][:2] if len(form.parent.rest()) >= 2 else ('PLACE', 'TERM')
        if own == 'atom':
            return [f'A value is given by `assign`: write `(assign {place} {value})`.']
        return ['A value is given by `(assign PLACE TERM)`, as in `(assign (here) ?to)`.'
                if own == 'atom' else
                'Values stand in `(values (PLACE OBJECT) ..)`, as in `(values ((here) hall))`.']
    if own == 'value' and len(form.parent.parts) > 1:
        *place, value = [p.text() for p in form.parent.parts]
        return [f'The value of a place is written `(({" ".join(place)}) {value})`.']
    if word == '_':
        return wildcard(form)
    if kind == 'number':
        return ['A cost is a number in digits, not `0` and without a leading zero.']
    if typed_hint(word, kind, own):
        return typed_hint(word, kind, own)
    if kind in ('name', 'term') and word[0].isdigit():
        return [f'`{word}` is no name: a name begins with a letter.']
    if kind == 'parameter' and own == 'parameter':
        return ['The parameter stands first, then its type: `(?x room)`.']
    if kind in ('parameter', 'objects', 'predicates', 'functions'):
        return ['Each entry stands in parentheses of its own.']
    if kind == 'literal' and form.parent.head() == 'kx' and members(form.parent):
        return [f'Each member of a group is a literal of its own: `(kx {" ".join(members(form.parent))})`.']
    if kind in ('fact', 'place', 'atom', 'literal', 'pattern'):
        return [f'`{word}` needs parentheses of its own: `({word})`, with its arguments if it has '
                'any.']
    return None


def typed_hint(word: str, kind: Optional[str], own: Optional[str]) -> List[str]:
    """Where a dash or a variable stands that PDDL has with its types."""
    if word == '-' and kind == 'functions':
        return ['The type of a value stands last in the list of its function, without `-`: `(loc item room)`.']
    if word == '-':
        return ['Types have no `-` before them: `(?x room)`, `(cup item)`; a type with its parent '
                'is `(room place)`, in version 2.']
    if kind == 'name' and own in ('predicates', 'functions') and VARIABLE.match(word):
        return ['Predicates and functions are declared by types alone, that of a value last: `(in item room)`, '
                '`(loc item room)`.']
    return []


def wildcard(form: Form) -> List[str]:
    """What is said of `_` where no pattern stands."""
    said, above = 'A wildcard stands in patterns alone: in `clear`, `sense-all` and `lcw`', form.parent
    while above is not None and grammar.role(above) not in (*QUERIES, 'effect', 'sense', 'start', 'add'):
        above = above.parent
    kind = grammar.role(above) if above is not None else None
    if kind in QUERIES:
        return [f'{said}, and no query has one. That something is so of no object, or of each, is a query for each '
                'object; that it is so of some object is asked by an action with a parameter for that'
                + (', which sets a fact for the goal.' if is_in_goal(form) else '.')]
    if kind == 'effect':
        return [f'{said}. Write one effect for each object; all facts at once become false by `(clear ..)`.']
    if kind == 'sense':
        return [f'{said}. Write one sense for each object, or `(sense-all ..)`.']
    return [f'{said}. Write one literal for each object; or, where all else is false, `(lcw ..)`.']


def members(group: Form) -> List[str]:
    """The literals that are meant where a group has a place and its values, or a predicate and its arguments."""
    first, *others = group.rest() or [group]
    if not others or not all(part.word for part in others):
        return []
    about = f'(= {first.text()} {{}})' if first.is_list() else f'({first.text()} {{}})'
    return [about.format(part.word) for part in others]


def list_hint(form: Form, kind: Optional[str]) -> Optional[List[str]]:
    """Where a list stands that has another kind or number of parts."""
    if kind == 'parameter' and '-' in [p.word for p in form.parts]:
        return [f'A type has no `-` before it: `({form.parts[0].text()} {form.parts[-1].text()})`.']
    if kind == 'name' and form.parent.head() == 'action' and form.index() == 1:
        return ['The name of the action is missing: `(action NAME ..)`.']
    return number(form)


# How a value is told where a fact's form was written.
VALUED = {'k': '(k (= {} {}))', 'kf': '(kf (= {} {}))', 'set': '(assign {} {})'}


def number(form: Form) -> Optional[List[str]]:
    """For a list with a right head that has the wrong number of parts."""
    head = form.head()
    lacks = lacking(form)
    if lacks:
        return lacks
    if head in grammar.SHAPES:
        said = [f'This list has {count(len(form.rest()), "part")} behind `{head}`; it is '
                f'{grammar.SHAPES[head]}.']
        parts = form.rest()
        if head == 'kx' and len(parts) == 1 and any(part.word == '_' for part in parts[0].parts or []):
            said.append('A wildcard stands in patterns alone: name each member.')
        elif head == 'kx' and len(parts) == 1:
            said.append(f'If this is the only one that can be, it is so: `(kf {parts[0].text()})`. Else name the others too.')
        if head in VALUED and len(parts) == 2 and parts[0].is_list() and parts[1].word:
            said.append('A value is written '
                        f'`{VALUED[head].format(parts[0].text(), parts[1].text())}`.')
        elif head in ('k', 'kf', 'set', 'unset') and len(parts) > 1:
            each = ' '.join(p.text() if p.head() in WHERE else f'({head} {p.text()})'
                            for p in form.rest())
            said.append(f'Write one for each: `{each}`.')
        if head in ('when', 'if') and len(form.rest()) > 2:
            each = ' '.join(f'({head} {form.parts[1].text()} {p.text()})' for p in form.parts[2:])
            said.append(f'Write one for each: `{each}`.')
        return said
    if form.is_list() and not form.parts:
        return ['An empty list stands here.']
    return None


def beginning(text: Text, code: int) -> List[str]:
    """Codes 120 to 123."""
    heads = [f.head() or '' for f in text.forms]
    at = BEGINNINGS.index(Code(code))
    own = heads[at] if len(heads) > at else ''
    if own not in TOPS and (own.lower() in TOPS or near(own, TOPS[at:at + 1])):
        return [f'Capital letters count: write `{own.lower()}`.' if own.lower() in TOPS else f'Is `{TOPS[at]}` meant?']
    if code == Code.VERSION:
        said = ['A file begins with `(pks 1)`, or with `(pks 2)` where it has costs, parents of '
                f'types, aims over time or more than {limits.OBJECTS[1]} objects.']
        if heads[:1] == ['pks']:
            said.insert(0, f'There is no such version: {text.forms[0].text()}.')
        elif heads[:1] == ['domain']:
            said.insert(0, 'The version is missing before the domain.')
        return said + pddl(heads[:1])
    if code == Code.DOMAIN:
        return ['Behind the version stands `(domain ..)`, without a name.'] + pddl(heads[1:2])
    if code == Code.PROBLEM:
        said = ['Behind the domain stands `(problem (init ..) (goal ..))`, without a name.']
        if heads[2:3] == ['action']:
            said.append('An action stands outside of the domain: the domain was closed too early.')
        return said + pddl(heads[2:3])
    if heads[3:] and set(heads[3:]) == {'world'}:
        return ['A file has one world. Keep each in a file of its own, and put one behind the rest: '
                '`cat FILE WORLD | ./pks exec DEPTH`.']
    if len(text.forms) > at and text.forms[at].word:
        return ['Answers of a dialogue stand behind a line that is a full stop alone, and here is none.']
    return ['Behind the problem there may stand `(world (true ..) (values ..))`, and nothing else.']


# Dialogues

def ends_dialogue(text: Text, at: int) -> bool:
    """Whether a full stop seems to end the file of a dialogue: alone in its line, or the last of it behind a problem."""
    line, column = text.place(at)
    before, behind = text.line(line)[:column - 1], text.line(line)[column:]
    is_alone, has_problem = not before.strip(), any(form.head() == 'problem' and form.start < at for form in text.forms)
    return not behind.strip() and (is_alone or has_problem)


def full_stop(text: Text, at: int) -> List[str]:
    """110 at a full stop."""
    line, column = text.place(at)
    before, behind = text.line(line)[:column - 1], text.line(line)[column:]
    if not ends_dialogue(text, at):
        said = 'A name has letters, digits, `-` and `_`: write `cup-1` for `cup.1`.'
        return [said if behind[:1].isalnum() else said + ' A comment begins with `;`.']
    said = 'A full stop alone in its line ends the file of a dialogue, and `agent` alone reads it'
    if before.strip():
        return [said + '. Here something stands before it: let the file end with a line feed.']
    if before or behind:
        return [said + '. Here blanks stand beside it, or a carriage return.']
    return [said + ': ask about what stands before it.']


def pddl(heads: Sequence[str]) -> List[str]:
    """What is said where a form begins with `define`."""
    return [FOREIGN['define']] if heads == ['define'] else []


def by_indentation(text: Text) -> Tuple[Optional[Place], Optional[Place]]:
    """A list that by the indentation lost a parenthesis, and one that gained one; or None."""
    lost, gained = lost_parenthesis(text), gained_parenthesis(text)
    if lost and text.begins_line(lost[0]) == 1 and lost[2].head() not in TOPS:
        return None, None
    if lost and (not gained or lost[1] <= gained[1]):
        return lost[:2], None
    return None, gained


def suspect(text: Text) -> Optional[int]:
    """The line that by the indentation lacks a parenthesis or has one too many, or None."""
    lost, gained = by_indentation(text)
    if lost:
        return previous(text, lost[1])
    return text.place(gained[0].end - 1)[0] if gained else None


def parentheses(text: Text) -> List[str]:
    """What the indentation tells of a parenthesis that is missing or too many."""
    lost, gained = by_indentation(text)
    if lost:
        outer, line = lost
        start = text.place(outer.start)[0]
        return [f'By the indentation the list `{opening(text, outer)}` of line {start} lost a `)`: '
                f'line {line} begins as if it were closed, and it isn\'t. '
                f'Look at the end of line {previous(text, line)}:',
                '    ' + text.line(previous(text, line)).strip('\r')]
    if gained:
        outer, line = gained
        start, end = text.place(outer.start)[0], text.place(outer.end - 1)[0]
        return [f'By the indentation the list `{opening(text, outer)}` of line {start} gained a '
                f'`)`: line {line} is indented as a part of it, but it was closed in line {end}:',
                '    ' + text.line(end).strip('\r')]
    return []


def previous(text: Text, line: int) -> int:
    """The last line before this one that isn't blank or a comment."""
    line -= 1
    while line > 1 and (not text.line(line).strip() or text.line(line).strip().startswith(';')):
        line -= 1
    return line


def opening(text: Text, form: Form) -> str:
    """How a list begins, without its lists."""
    words = [p.word for p in form.parts[:2] if p.word]
    return '(' + ' '.join(words)
