"""How a list that is wrong at its place would be written right, as a text.

What stands in a section is taken as what it seems to mean: a literal in `pre` is asked for, one in `effects` is made
so, one in `init` is known; words of PDDL become those that stand for them. The program judges the outcome.
"""

from typing import Callable, Dict, List, Optional, Tuple

from pkslib import Form

from . import grammar
from .names import Names
from .shape import FOREIGN, members

SECTION_WORDS = {
    'parameters': 'params', 'precondition': 'pre', 'preconditions': 'pre', 'effect': 'effects', 'observe': 'senses',
    'sensed': 'senses', 'constants': 'objects', 'goals': 'goal',
}
"""Words of PDDL, and others that come to mind, for sections."""

LEFT_OUT = ('requirements', 'domain', 'metric')
"""Sections of PDDL that have nothing to say here."""

NUMERIC = ('increase', 'decrease', 'scale-up', 'scale-down')


def words_of(form: Form) -> List[Form]:
    """The parts of a list behind its head, which may have a colon before it."""
    return form.parts[2:] if form.parts and form.parts[0].word == ':' else form.rest()


def head_of(form: Form) -> Optional[str]:
    """The head of a list in small letters, without a colon before it."""
    word = form.parts[1].word if len(form.parts) > 1 and form.parts[0].word == ':' else form.head()
    return word.lower() if word else None


def pairs(parts: List[Form]) -> List[Tuple[str, Optional[str]]]:
    """The words of a list as PDDL types them, `a b - t`, each with its type."""
    found: List[Tuple[str, Optional[str]]] = []
    waiting: List[str] = []
    at = 0
    while at < len(parts):
        if parts[at].word == '-' and at + 1 < len(parts):
            found += [(word, parts[at + 1].text()) for word in waiting]
            waiting, at = [], at + 2
        else:
            waiting.append(parts[at].text())
            at += 1
    return found + [(word, None) for word in waiting]


def has_dash(parts: List[Form]) -> bool:
    """Whether a type stands behind a dash there."""
    return any(part.word == '-' for part in parts)


def instances(form: Form, names: Names) -> List[str]:
    """What `(forall (?x - t) ..)` says, once for each object; nothing where that can't be read."""
    if len(form.rest()) != 2 or not form.parts[1].is_list():
        return []
    listed = form.parts[1].parts
    if len(listed) == 1 and listed[0].is_list():
        listed = listed[0].parts
    words = [part.word for part in listed if part.word and part.word != '-']
    if len(words) != 2:
        return []
    variable, kind = words
    return [form.parts[2].text().replace(f'{variable} ', f'{name} ').replace(f'{variable})', f'{name})')
            for name in names.of_type(kind)]


def reread(text: str) -> Form:
    """The form of a text."""
    from pkslib import Text
    return Text(text).forms[0]


class Rewriting:
    """The parts of a section as they would be right, each in one or more forms."""

    def __init__(self, names: Names, action: Optional[Form] = None) -> None:
        self.names, self.action = names, action

    def flat(self, form: Form, single: Callable[[Form], List[str]]) -> List[str]:
        """The parts of an `and` and the instances of a `forall`, one by one."""
        if form.head() == 'and':
            return [text for part in form.rest() for text in self.flat(part, single)]
        if form.head() == 'forall' and instances(form, self.names):
            return [text for said in instances(form, self.names) for text in self.flat(reread(said), single)]
        return single(form)

    def query(self, form: Form) -> List[str]:
        """A part of `pre`, of an `if` or of the goal."""
        head, inner = form.head(), form.rest()
        if head in [*grammar.AIMS, 'not-derived'] and len(inner) == 1:
            return [f'({head} {text})' for text in self.query(inner[0])]
        if head == 'lcw' and len(inner) == 1:
            return [f'(k (not {text}))' for text in self.without_wildcards(inner[0])]
        if head == 'k' and len(inner) == 1 and inner[0].head() == 'not' and len(inner[0].rest()) == 1:
            return [f'(k (not {text}))' for text in self.without_wildcards(inner[0].parts[1])]
        if head in ('k', 'kf') and len(inner) == 1 and self.equation(inner[0]):
            return [f'(k {self.equation(inner[0])})']
        if head in ('kf', 'knows', 'known') and inner:
            return [f'(k {part.text()})' for part in inner]
        if head == 'kv' and self.is_atom(inner):
            return [f'(kw {inner[0].text()})']
        if head == 'k' and len(inner) == 2 and inner[0].is_list() and inner[1].word:
            return [f'(k (= {inner[0].text()} {inner[1].text()}))']
        if head == 'k' and len(inner) > 1:
            return [f'(k {part.text()})' for part in inner]
        if head == 'not' and inner and inner[0].head() == 'k' and inner[0].rest():
            return [f'(k (not {inner[0].parts[1].text()}))']
        if head in grammar.QUERIES + grammar.AIMS + ['not-derived'] or not self.is_fact(form):
            return [form.text()]
        return [f'(k {self.equation(form) or form.text()})']

    def effect(self, form: Form) -> List[str]:
        """A part of `effects`."""
        head, inner = form.head(), form.rest()
        if head in NUMERIC:
            return []
        if head == 'unset' and len(inner) == 1 and self.has_wildcard(inner[0]):
            return [f'(clear {inner[0].text()})']
        if head == 'toggle' and len(inner) == 1 and inner[0].is_list():
            atom = inner[0].text()
            return [f'(when ({atom}) (unset {atom}))', f'(when ((not {atom})) (set {atom}))']
        if self.names.valued(form):
            return ['(assign {} {})'.format(*self.names.valued(form))]
        if head == 'set' and len(inner) == 2 and inner[0].head() in self.names.functions:
            return [f'(assign {inner[0].text()} {inner[1].text()})']
        if head == 'when' and len(inner) >= 2:
            return self.when(form)
        if head in ('set', 'unset') and len(inner) > 1 and all(part.is_list() for part in inner):
            return [text for part in inner for text in self.effect(reread(f'({head} {part.text()})'))]
        if head == 'set' and len(inner) == 1:
            target = inner[0]
        elif head in grammar.TARGETS + ['when'] or not self.is_fact(form):
            return [form.text()]
        else:
            target = form
        if target.head() == 'not' and target.rest():
            return [f'(unset {target.parts[1].text()})']
        if target.head() == '=' and len(target.rest()) == 2:
            return [f'(assign {target.parts[1].text()} {target.parts[2].text()})']
        return [f'(set {target.text()})']

    def when(self, form: Form) -> List[str]:
        """An effect under a condition, once for each thing that it does."""
        condition, *done = form.rest()
        if condition.head() == 'and':
            said = ' '.join(part.text() for part in condition.rest())
        elif condition.parts and condition.parts[0].is_list():
            said = condition.text()[1:-1]
        else:
            said = condition.text()
        return [f'(when ({said}) {text})' for part in done for text in self.flat(part, self.effect)]

    def is_sensed(self, literal: Form) -> bool:
        """Whether the action senses this very literal."""
        senses = self.names.section(self.action, 'senses') if self.action else []
        return any([part.text() for part in sense.rest()] == [literal.text()] for sense in senses)

    def item(self, form: Form) -> List[str]:
        """A part of `knows`."""
        head, inner = form.head(), form.rest()
        if head == 'if' and len(inner) == 2 and inner[0].head() in grammar.QUERIES + ['not-derived']:
            return [f'(if ({inner[0].text()}) {inner[1].text()})']
        if head == 'if' and len(inner) == 2 and inner[0].parts and all(part.is_list() for part in inner[0].parts):
            asked = ' '.join(text for part in inner[0].parts for text in self.query(part))
            return [f'(if ({asked}) {text})' for text in self.item(inner[1])]
        if head == 'if' and len(inner) > 2:
            return [f'(if {inner[0].text()} {part.text()})' for part in inner[1:]]
        if head == 'kw' and len(inner) == 1 and inner[0].head() in ('or', 'and'):
            return ['(kw ' + ' '.join(part.text() for part in inner[0].rest()) + ')']
        if head == 'kv' and self.is_atom(inner):
            return [f'(kw {inner[0].text()})']
        if head in ('k', 'kf') and len(inner) == 1 and self.equation(inner[0]):
            return [f'(kf {self.equation(inner[0])})']
        if head in ('k', 'knows', 'known', 'kf') and len(inner) == 1 and self.is_place(inner[0]):
            return [f'(kv {inner[0].text()})']
        if head in ('k', 'knows', 'known', 'kf') and inner:
            return [f'({"kw" if self.is_sensed(part) else "kf"} {part.text()})' for part in inner]
        if head in grammar.ITEMS + ['if'] or not self.is_fact(form):
            return [form.text()]
        if self.equation(form):
            return [f'(kf {self.equation(form)})']
        return [f'({"kw" if self.is_sensed(form) else "kf"} {form.text()})']

    def sense(self, form: Form) -> List[str]:
        """A part of `senses`."""
        head, inner = form.head(), form.rest()
        if head in ('k', 'kw', 'observe', 'sense') and len(inner) == 1 and self.is_place(inner[0]):
            return [f'(sense-value {inner[0].text()})']
        if head == 'sense' and len(inner) == 1 and self.has_wildcard(inner[0]):
            return [f'(sense-all {inner[0].text()})']
        if head in ('k', 'kw', 'observe') and inner:
            return ['(sense ' + ' '.join(part.text() for part in inner) + ')']
        if head == 'kv' and inner:
            return [f'(sense-value {inner[0].text()})']
        if head in grammar.SENSES or not self.is_fact(form):
            return [form.text()]
        return [f'(sense-value {form.text()})' if head in self.names.functions else f'(sense {form.text()})']

    def start(self, form: Form) -> List[str]:
        """A part of `init`."""
        head, inner = form.head(), form.rest()
        if head == 'unknown':
            return []
        if head == 'oneof':
            return ['(kx ' + ' '.join(part.text() for part in inner) + ')']
        if head == 'kx' and members(form):
            return [f'(kx {" ".join(members(form))})']
        if head == 'kx' and len(inner) == 1 and len(self.without_wildcards(inner[0])) > 1:
            return [f'(kx {" ".join(self.without_wildcards(inner[0]))})']
        if head in ('k', 'kf') and len(inner) == 1 and self.equation(inner[0]):
            return [f'(kf {self.equation(inner[0])})']
        if head in ('kx', 'k', 'knows', 'known') and len(inner) == 1:
            return [f'(kf {inner[0].text()})']
        if head == 'kf' and inner:
            return [f'(kf {text})' for part in inner for text in self.without_wildcards(part)]
        if head in grammar.ITEMS + ['kx'] or not self.is_fact(form):
            return [form.text()]
        return [f'(kf {self.equation(form) or form.text()})']

    def is_atom(self, parts: List[Form]) -> bool:
        """Whether a single atom stands there, and no place of a function."""
        return len(parts) == 1 and parts[0].head() in self.names.predicates \
            and parts[0].head() not in self.names.functions

    def is_place(self, form: Form) -> bool:
        """Whether a list is a place of a function, with all its arguments."""
        head = form.head()
        return head in self.names.functions and head not in self.names.predicates \
            and len(form.rest()) == len(self.names.functions[str(head)][0])

    def equation(self, form: Form) -> Optional[str]:
        """Of a function with one argument too many, as if it were a predicate, the equation that is meant, or None."""
        valued = self.names.valued(form)
        return f'(= {valued[0]} {valued[1]})' if valued else None

    @staticmethod
    def has_wildcard(form: Form) -> bool:
        """Whether `_` stands among the parts of a list."""
        return any(part.word == '_' for part in form.parts)

    def without_wildcards(self, literal: Form) -> List[str]:
        """A literal for each object at its wildcard."""
        at = next((i for i, part in enumerate(literal.parts) if i and part.word == '_'), None)
        types = self.names.predicates.get(literal.head() or '', [])
        if at is None or at > len(types):
            return [literal.text()]
        found = []
        for name in self.names.of_type(types[at - 1]):
            words = [part.text() for part in literal.parts]
            words[at] = name
            found += self.without_wildcards(reread('(' + ' '.join(words) + ')'))
        return found

    def is_fact(self, form: Form) -> bool:
        """Whether a list is a literal, and none of the language's own forms."""
        head = form.head()
        return grammar.is_literal(form) and (head in ('not', '=') or head in self.names.predicates
                                             or head not in grammar.HEADS and head not in FOREIGN)

    # Declarations

    def entries(self, head: str, parts: List[Form]) -> List[str]:
        """The entries of a section that declares something."""
        if head == 'params':
            listed = parts[0].parts if len(parts) == 1 and has_dash(parts[0].parts) else parts
            if not has_dash(listed) and all(part.word for part in listed) and len(listed) % 2 == 0:
                return [f'({a.text()} {b.text()})' for a, b in zip(listed[::2], listed[1::2])]
            return [f'({name} {kind})' if kind else name for name, kind in pairs(listed)] if has_dash(listed) \
                else [self.turned(part) for part in parts]
        if head == 'types':
            return [f'({name} {kind})' if kind and kind != 'object' else name for name, kind in pairs(parts)]
        if head == 'objects' and has_dash(parts):
            return self.by_type(pairs(parts))
        if head in ('predicates', 'functions'):
            return [text for _, texts in self.declarations(head, parts) for text in texts]
        return [part.text() for part in parts]

    @staticmethod
    def turned(part: Form) -> str:
        """A parameter with its type, where they stand the other way round."""
        words = [p.word or '' for p in part.parts if p.word != '-']
        if len(words) == 2 and words[1].startswith('?'):
            words.reverse()
        return '(' + ' '.join(words) + ')' if len(words) == 2 else part.text()

    @staticmethod
    def by_type(found: List[Tuple[str, Optional[str]]]) -> List[str]:
        """Objects with their types as lists of a type and its objects."""
        kinds: Dict[str, List[str]] = {}
        for name, kind in found:
            kinds.setdefault(kind or 'object', []).append(name)
        return [f'({kind} {" ".join(names)})' for kind, names in kinds.items()]

    def declarations(self, head: str, parts: List[Form]) -> List[Tuple[Form, List[str]]]:
        """Each part of `predicates` or `functions` with what stands in its place: types alone, that of a value last."""
        found: List[Tuple[Form, List[str]]] = []
        for part in parts:
            if head == 'functions' and found and found[-1][0].word == '-' and not found[-1][1]:
                found[-2] = found[-2][0], [self.declared(found[-2][0], part.text())]
                found.append((part, []))
            elif head == 'functions' and found and self.is_value_of(part, found[-1][0]):
                found[-1] = found[-1][0], [self.declared(found[-1][0], None if part.word == '-' else part.word)]
                found.append((part, []))
            else:
                found.append((part, [self.declared(part)]))
        return found

    def is_value_of(self, part: Form, entry: Form) -> bool:
        """Whether behind the list of a function a dash stands, or the type of its value where that is wanting."""
        words = [other.text() for other in entry.rest()]
        wants = not words or any(word.startswith('?') for word in words)
        return entry.is_list() and (part.word == '-' or part.word in self.names.types and wants)

    def declared(self, part: Form, value: Optional[str] = None) -> str:
        """A predicate or a function by types, where it has variables, with the type of a value behind it."""
        types = [other.text() for other in part.rest()]
        if has_dash(part.parts):
            types = [kind or self.only_type() for _, kind in pairs(part.rest())]
        elif any(name.startswith('?') for name in types):
            types = self.without_variables(types)
        elif not value:
            return part.text()
        return '(' + ' '.join([part.head() or '', *types, *([value] if value else [])]) + ')'

    def without_variables(self, words: List[str]) -> List[str]:
        """The types of a declaration whose variables have theirs behind them, as in `?x room`, or have none."""
        kept = []
        for word, following in zip(words, words[1:] + ['?']):
            if not word.startswith('?'):
                kept.append(word)
            elif following.startswith('?'):
                kept.append(self.only_type())
        return kept

    def only_type(self) -> str:
        """The type that is meant where none is named."""
        return next(iter(self.names.types)) if len(self.names.types) == 1 else 'object'

    def section(self, head: str, parts: List[Form]) -> Optional[str]:
        """A section with this head and these parts, or None where it has nothing to say."""
        if head in self.rules():
            said = [text for part in parts for text in self.part(head, part)]
        else:
            said = self.entries(head, parts)
        return f'({" ".join([head] + said)})' if said or head != 'goal' else None

    def rules(self) -> Dict[str, Callable[[Form], List[str]]]:
        """What a part becomes in each section whose parts stand each for itself."""
        return {'pre': self.query, 'goal': self.query, 'effects': self.effect, 'senses': self.sense, 'knows': self.item,
                'init': self.start}

    def part(self, head: str, part: Form) -> List[str]:
        """What stands in place of one part of such a section."""
        return self.flat(part, self.rules()[head])
