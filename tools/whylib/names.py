"""What a file declares, and the types of its terms."""

import difflib
import itertools
from typing import Dict, Iterable, Iterator, List, Optional, Tuple

from pkslib import Form, Text


OF_LITERALS = ('k', 'kf', 'kw', 'sense', 'set', 'unset', 'not')
"""The heads of lists in which a literal stands."""


class Names:
    """The declarations of a domain, as far as they can be read."""

    def __init__(self, text: Text) -> None:
        self.version = 2 if text.forms and text.forms[0].text() == '(pks 2)' else 1
        self.types: Dict[str, Optional[str]] = {}
        self.objects: Dict[str, str] = {}
        self.predicates: Dict[str, List[str]] = {}
        self.functions: Dict[str, Tuple[List[str], str]] = {}
        self.actions: Dict[str, Form] = {}
        self.domain = next((f for f in text.forms if f.head() == 'domain'), None)
        self.problem = next((f for f in text.forms if f.head() == 'problem'), None)
        self.world = next((f for f in text.forms if f.head() == 'world'), None)
        for section in self.domain.parts[1:] if self.domain else []:
            self.declare(section)

    def declare(self, section: Form) -> None:
        """Takes what a section of the domain declares."""
        head = section.head()
        if head == 'action' and len(section.parts) > 1 and section.parts[1].word:
            self.actions.setdefault(section.parts[1].word, section)
        for entry in section.parts[1:] if section.is_list() else []:
            words = [p.word for p in entry.parts if p.word] if entry.is_list() else [entry.word]
            if not words:
                continue
            if head == 'types':
                self.types.setdefault(words[0], words[1] if len(words) > 1 else None)
            elif head == 'objects':
                for name in words[1:]:
                    self.objects.setdefault(name, words[0])
            elif head == 'predicates':
                self.predicates.setdefault(words[0], words[1:])
            elif head == 'functions':
                self.functions.setdefault(words[0], (words[1:-1], words[-1]))

    def bare(self, form: Form) -> Optional[str]:
        """The literal whose parts stand in a list without parentheses of their own, or None."""
        head, words = form.head(), [part.word or '' for part in form.rest()]
        if head not in OF_LITERALS or len(words) < 2 or not all(words):
            return None
        name, terms = words[0], words[1:]
        if len(self.predicates.get(name, [])) == len(terms):
            return f'({" ".join(words)})'
        if name in self.functions and len(self.functions[name][0]) == len(terms) - 1 and head not in ('set', 'unset'):
            return f'(= ({" ".join(words[:-1])}) {words[-1]})'
        return None

    def section(self, form: Optional[Form], head: str) -> List[Form]:
        """The parts of a section of a domain, an action, a problem or a world."""
        for part in form.parts[1:] if form else []:
            if part.head() == head:
                return part.rest()
        return []

    def init(self) -> List[Form]:
        """The items of `init`."""
        return self.section(self.problem, 'init')

    def action_of(self, form: Optional[Form]) -> Optional[Form]:
        """The action in which a form stands, or None."""
        while form is not None and form.head() != 'action':
            form = form.parent
        return form

    def params(self, action: Form) -> Dict[str, Optional[str]]:
        """The parameters of an action with their types."""
        found = {}
        for p in self.section(action, 'params'):
            if p.is_list() and len(p.parts) == 2 and p.parts[0].word:
                found.setdefault(p.parts[0].word, p.parts[1].word)
        return found

    def fits(self, own: Optional[str], wanted: Optional[str]) -> bool:
        """Whether a type is another one or stands below it."""
        for _ in range(20):
            if own == wanted:
                return True
            own = self.types.get(own)
        return False

    def of_type(self, wanted: Optional[str]) -> List[str]:
        """The objects of a type and of those below it."""
        return [o for o, t in self.objects.items() if self.fits(t, wanted)]

    def type_of(self, form: Form, action: Optional[Form]) -> Optional[str]:
        """The type of a term, or None."""
        if form.word:
            if form.word.startswith('?'):
                return self.params(action).get(form.word) if action else None
            return self.objects.get(form.word)
        return self.functions.get(form.head(), (None, None))[1]

    def signature(self, form: Form) -> Tuple[Optional[str], Optional[List[str]]]:
        """Of an atom, pattern or place: 'predicate' or 'function', and the types."""
        head = form.head()
        if head in self.predicates and not is_term(form):
            return 'predicate', self.predicates[head]
        if head in self.functions:
            return 'function', self.functions[head][0]
        if head in self.predicates:
            return 'predicate', self.predicates[head]
        return None, None

    def valued(self, form: Form) -> Optional[Tuple[str, str]]:
        """Of a function with one argument too many, as if it were a predicate, the place and the value; or None."""
        head = form.head()
        if head not in self.functions or head in self.predicates \
                or len(form.rest()) != 1 + len(self.functions[str(head)][0]):
            return None
        *place, value = [part.text() for part in form.parts]
        return f'({" ".join(place)})', value

    def places(self) -> Iterator[str]:
        """Every place of the signature, as texts."""
        for name, (types, _) in self.functions.items():
            for values in itertools.product(*(self.of_type(t) for t in types)):
                yield '(' + ' '.join((name,) + values) + ')'


def is_term(form: Form) -> bool:
    """Whether a list stands where a term or a place does."""
    from . import grammar
    return grammar.role(form) in ('term', 'place')


def listed(names: Iterable[str], limit: int = 12) -> str:
    """Names in a sentence, so many of them at most."""
    names = list(names)
    if not names:
        return 'none'
    more = f' and {len(names) - limit} more' if len(names) > limit else ''
    return ', '.join(f'`{n}`' for n in names[:limit]) + more


def near(word: str, names: Iterable[str]) -> Optional[str]:
    """The name that looks most like a word, or None; a short word has few letters that may differ."""
    close = difflib.get_close_matches(word, list(names), 3, 0.6)
    return next((name for name in close if changes(word, name) <= max(1, (len(word) + 1) // 3)), None)


def changes(word: str, other: str) -> int:
    """How many letters are put in, left out, replaced or exchanged with the next one, from one word to another."""
    before, above = [], list(range(len(other) + 1))
    for i, letter in enumerate(word, 1):
        row = [i]
        for j, wanted in enumerate(other, 1):
            row.append(min(above[j] + 1, row[-1] + 1, above[j - 1] + (letter != wanted)))
            if i > 1 and j > 1 and (letter, word[i - 2]) == (other[j - 2], wanted):
                row[-1] = min(row[-1], before[j - 2] + 1)
        before, above = above, row
    return above[-1]


def count(number: int, what: str) -> str:
    """A number of things, the word with an `s` but for one."""
    return f'{number} {what}' + ('' if number == 1 else 's')
