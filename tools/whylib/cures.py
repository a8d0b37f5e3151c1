"""Ways to mend a refused file, each tried on the program before it is told.

A cure is a change of the text. One is told where the file is accepted with it, or where the next fault lies outside of
what was changed and isn't the same one.
"""

import itertools
import re
import time
import unicodedata
from dataclasses import dataclass
from typing import Callable, Iterator, List, Optional, Sequence, Tuple

from pkslib import Code, Form, Refusal, Text, read_refusal

from . import adds, grammar, shape
from .names import Names, near
from .rewriting import LEFT_OUT, SECTION_WORDS, Rewriting, head_of, words_of

SECONDS, MOST = 5.0, 120
Edit = Tuple[int, int, str]


@dataclass
class Cure:
    """Changes of a text: where each begins and ends, and what stands there then."""

    edits: List[Edit]
    is_part: bool = False
    """Whether it mends one part of a section, beside which others may be wrong."""
    is_end: bool = False
    """Whether the text ends where it begins, and what stood behind it isn't of the file."""

    def done(self, data: bytes) -> bytes:
        """The text with the changes."""
        for start, end, new in sorted(self.edits, reverse=True):
            data = data[:start] + new.encode('ascii', 'replace') + data[end:]
        return data

    def places(self) -> List[Tuple[int, int]]:
        """Where the changes begin and end in the text that is mended."""
        found, moved = [], 0
        for start, end, new in sorted(self.edits):
            found.append((start + moved, start + moved + len(new)))
            moved += len(new) - (end - start)
        return found

    def is_one_parenthesis(self) -> bool:
        """Whether one `)` comes or goes, and nothing else."""
        if len(self.edits) != 1:
            return False
        start, end, new = self.edits[0]
        return end - start < 2 and new in (')', '')


@dataclass
class Outcome:
    """A cure, the text with it, and what the program says of that."""

    cure: Cure
    data: bytes
    said: str

    def is_accepted(self) -> bool:
        """Whether the file is accepted with the cure."""
        return self.said.startswith('accepted')

    def sentences(self, by: str = 'With it') -> List[str]:
        """The lines that are mended, and how far that leads."""
        by = 'Up to there' if self.cure.is_end else by
        return self.shown() + [f'{by} the file is accepted.' if self.is_accepted() else
                               f'{by} the next fault is `{self.said.strip()}`.']

    def shown(self) -> List[str]:
        """The lines that are mended, at most six of them; none where the text ends before."""
        if self.cure.is_end:
            return []
        text, numbers = Text(self.data), []
        for start, end in self.cure.places():
            for number in range(text.place(start)[0], text.place(max(start, end - 1))[0] + 1):
                if number not in numbers:
                    numbers.append(number)
        kept = [number for number in numbers if text.line(number).strip()] or numbers
        lines = [line for number in kept[:6]
                 for line in excerpt(text.line(number).strip('\r'), self.cure, text, number)]
        gone = [f'Line {number} is left out.' for number in numbers if number not in kept]
        return [self.heading(text, kept), *[line for line in lines if line.strip()], *gone[:6]]

    def heading(self, text: Text, numbers: List[int]) -> str:
        """What is said above the lines that are mended."""
        if self.cure.is_one_parenthesis():
            line, column = text.place(self.cure.places()[0][0])
            what = 'one `)` more' if self.cure.edits[0][2] else 'one `)` less'
            return f'Mended, with {what} at column {column}, line {line} is:'
        if len(numbers) == 1 and not text.line(numbers[0]).strip():
            return f'Mended, line {numbers[0]} is left out.'
        if len(numbers) == 1:
            return f'Mended, line {numbers[0]} is:'
        more = ' (and more)' if len(numbers) > 6 else ''
        return f'Mended, lines {", ".join(map(str, numbers[:6]))} are{more}:'


def excerpt(line: str, cure: Cure, text: Text, number: int) -> List[str]:
    """A line as it is shown; of a long one the part around its changes."""
    shown = line.strip()
    if len(shown) <= 100:
        return ['    ' + shown]
    changes = [(start, end) for start, end in cure.places() if text.place(start)[0] <= number <= text.place(end)[0]]
    at = max(0, changes[0][0] - text.starts[number - 1])
    first, last = max(0, at - 60), max(at + 60, min(changes[-1][1] - text.starts[number - 1], at + 240))
    part = line[first:last] if first else line[:last].lstrip()
    return ['    ' + ('..' if first else '') + part + ('..' if last < len(line) else '')]


class Patient:
    """A refused file: its text, its names, and the form at which it was refused."""

    def __init__(self, text: Text, names: Names, refusal: Refusal) -> None:
        self.text, self.names, self.refusal = text, names, refusal
        self.at = text.at(refusal.line, refusal.column)
        self.form = text.form_at(self.at) if self.at < len(text.data) else None
        self.action = names.action_of(self.form)
        self.rewriting = Rewriting(names, self.action)

    # Changes

    def instead(self, form: Form, new: str) -> Cure:
        """Another text in a form's place."""
        return Cure([(form.start, form.end or len(self.text.data), new)])

    def without(self, form: Form) -> Cure:
        """The text without a form, and without the blanks before it."""
        start, data = form.start, self.text.data
        while start > 0 and data[start - 1:start] in (b' ', b'\t'):
            start -= 1
        if start and data[start - 1:start] == b'\n':
            start = form.start
        return Cure([(start, form.end or len(data), '')])

    def behind(self, form: Form, new: str) -> Cure:
        """A text behind a form."""
        end = form.end or len(self.text.data)
        return Cure([(end, end, ' ' + new)])

    def version(self, number: int) -> Cure:
        """The version in the first form, which is put there where it is missing."""
        first = self.text.forms[0] if self.text.forms else None
        if first is not None and first.head() == 'pks':
            return self.instead(first, f'(pks {number})')
        start = first.start if first else 0
        return Cure([(start, start, f'(pks {number})\n')])

    def both(self, one: Cure, other: Cure) -> Cure:
        """Two cures together."""
        return Cure(one.edits + other.edits)

    def everywhere(self, word: str, other: str) -> Cure:
        """Another word wherever this one stands."""
        pattern = rf'(?<![A-Za-z0-9_?=-]){re.escape(word)}(?![A-Za-z0-9_?=-])'
        return Cure([(m.start(), m.end(), other) for m in re.finditer(pattern, self.text.code())])

    # By code

    def cures(self) -> Iterator[Cure]:
        """The cures to try, the likeliest first."""
        code = self.refusal.code
        rules = {
            Code.ASCII: self.ascii, Code.BAD_BYTE: self.bad_byte, Code.VERSION: self.beginning,
            Code.DOMAIN: self.beginning, Code.PROBLEM: self.beginning, Code.WORLD: self.beginning, Code.FORM: self.wrong_form, Code.WORLD_FORM: self.wrong_form,
            Code.UNDECLARED: self.undeclared, Code.WORLD_UNDECLARED: self.undeclared, Code.PARAMETER: self.parameter,
            Code.ARGUMENTS: self.arguments, Code.TYPE: self.types, Code.WORLD_FACT: self.types, Code.TWICE: self.twice,
            Code.HEIGHT: self.height, Code.GROUP: self.twice, Code.WORLD_TWO_VALUES: self.twice, Code.ADD: self.add,
            Code.LIMIT: self.limit,
        }
        rule = rules.get(Code(code)) if code in set(Code) else None
        return rule() if rule else iter(())

    def ascii(self) -> Iterator[Cure]:
        """Letters that are near those that aren't ASCII."""
        edits, at = [], 0
        for letter in self.text.data.decode('utf-8', 'replace'):
            size = len(letter.encode('utf-8')) if letter != '\ufffd' else 1
            if ord(letter) > 127:
                edits.append((at, at + size, plain(letter)))
            at += size
        yield Cure(edits)

    def bad_byte(self) -> Iterator[Cure]:
        """What stands for words of PDDL, for numbers with a full stop, and for commas."""
        letter = self.text.text[self.at]
        form = self.form
        if form is not None and form.parent is not None and form.parent.head() == 'pks':
            yield self.version(1)
            yield self.version(2)
        if letter == '.' and shape.ends_dialogue(self.text, self.at):
            yield Cure([(self.at, len(self.text.data), '')], is_end=True)
            return
        if letter == ':':
            colons = Colons(self)
            yield colons.all()
            yield colons.without_marks()
        if letter == '.':
            yield Cure([(found.start(), found.end(), '-')
                        for found in re.finditer(r'(?<=[A-Za-z0-9_-])\.(?=[A-Za-z0-9_-])', self.text.code())])
        if letter in '#/':
            yield Cure([(found.start(1), found.end(1), ';')
                        for found in re.finditer(rf'(?m)(?:^|[ \t])({re.escape(letter)}+)(?=[ \t]|$)', self.text.code())])
        if letter in '/!':
            yield from self.negations(letter)
        if letter not in '<>!' and not re.search(r'/\s*=', self.text.code()):
            yield Cure([(found.start(), found.end(), ' ')
                        for found in re.finditer(re.escape(letter), self.text.code())])

    def negations(self, letter: str) -> Iterator[Cure]:
        """`(/= a b)`, `(!= a b)` and `(! (p))` by `not`."""
        cure = Cure([])
        for form in self.text.lists:
            words, others = [part.word for part in form.parts[:2]], [part.text() for part in form.parts]
            if words == [letter, '='] and len(others) == 4:
                cure = self.both(cure, self.instead(form, f'(not (= {others[2]} {others[3]}))'))
            elif words == [letter, None] and len(others) == 2:
                cure = self.both(cure, self.instead(form, f'(not {others[1]})'))
        if cure.edits:
            yield cure

    def beginning(self) -> Iterator[Cure]:
        """A version, a part of the file by its own word, and a domain without `define`."""
        for form, word in zip(self.text.forms, ('pks', 'domain', 'problem', 'world')):
            head = form.head() or ''
            if head != word and (head.lower() == word or near(head, [word])):
                yield self.instead(form.parts[0], word)
        for form in self.text.forms[:2]:
            if form.head() == 'define' and len(form.parts) > 1 and form.parts[1].head() == 'domain':
                head: Edit = (form.start, form.parts[1].end or form.start, '(domain')
                yield Cure([head])
                yield self.both(Cure([(head[0], head[1], '(pks 1)\n(domain')]), Cure([]))
                yield self.both(Cure([(head[0], head[1], '(pks 2)\n(domain')]), Cure([]))
        yield self.version(1)
        yield self.version(2)

    def wrong_form(self) -> Iterator[Cure]:
        """124 and 300."""
        form = self.form
        if form is None or form.parent is None:
            return
        if grammar.version_hint(form, self.names.version):
            yield self.version(2)
        yield from self.head(form)
        yield from self.misplaced(form)
        section = form
        while section.parent is not None and section.parent.head() not in grammar.SECTIONS:
            yield from self.near_form(section)
            section = section.parent
        yield from self.whole_section(section)

    def head(self, form: Form) -> Iterator[Cure]:
        """Another head: in small letters, or one that looks like it."""
        head, kind = form.head(), grammar.role(form)
        if head is None or form.parent is None:
            return
        heads = grammar.SECTIONS.get(form.parent.head() or '', []) if kind == 'section' else grammar.allowed(kind) or []
        for other in (head.lower(), SECTION_WORDS.get(head.lower()), near(head, heads) if len(head) > 2 else None):
            if other in heads and other != head:
                yield self.instead(form.parts[0], str(other))

    def misplaced(self, form: Form) -> Iterator[Cure]:
        """A section out of order, one that lacks its head, one that has nothing to say, a name."""
        parent = form.parent
        if parent is None or grammar.role(form) != 'section':
            return
        head = form.head() or ''
        if form.word and form.index() == 1:
            yield self.without(form)
        order = grammar.SECTIONS[parent.head() or '']
        if head in order and head != 'action':
            yield self.in_order(parent, order)
        if head in LEFT_OUT:
            yield self.without(form)
        if parent.head() == 'problem' and head in grammar.SECTIONS['domain'] and self.names.domain is not None:
            yield self.into_domain(form, self.names.domain)
        if head in ('problem', 'world') and parent.head() in ('domain', 'problem') and form is parent.parts[-1] and parent.end:
            before = parent.parts[-2].end or form.start
            yield Cure([(before, before, ')'), (parent.end - 1, parent.end, '')])
        heads = {'senses': grammar.SENSES, 'effects': grammar.TARGETS + ['when'], 'pre': grammar.QUERIES + ['not-derived'],
                 'knows': grammar.ITEMS + ['if']}
        for section, own in heads.items():
            if parent.head() == 'action' and head in own:
                yield self.instead(form, f'({section} {form.text()})')

    def into_domain(self, form: Form, domain: Form) -> Cure:
        """A section of the problem at its place in the domain, or its parts behind those that stand there."""
        head, order = str(form.head()), grammar.SECTIONS['domain']
        said = self.rewriting.section(head, form.rest()) or form.text()
        own = next((part for part in domain.parts if part.head() == head), None)
        if own is not None and head != 'action':
            put = self.behind(own.parts[-1], said[len(head) + 2:-1])
        else:
            before = [part for part in domain.parts if part.head() in order[:order.index(head) + 1]]
            put = self.behind((before or domain.parts)[-1 if before else 0], said)
        return self.both(put, self.without(form))

    def in_order(self, parent: Form, order: Sequence[str]) -> Cure:
        """The sections of a list in the order of the grammar, each in the place of another."""
        parts = [part for part in parent.parts if part.head() in order]
        wanted = sorted(parts, key=lambda part: order.index(part.head() or ''))
        source = self.text.text
        return Cure([(old.start, old.end or 0, source[new.start:new.end]) for old, new in zip(parts, wanted) if old is not new])

    def near_form(self, form: Form) -> Iterator[Cure]:
        """A form that is near to the wrong one."""
        role, whole = grammar.role_of_list(form), form if form.is_list() else form.parent
        literal = self.names.bare(whole) if whole is not None else None
        if whole is not None and literal:
            yield self.instead(whole, f'({whole.head()} {literal})')
        if role in ('literals', 'queries'):
            yield self.instead(form, f'({form.text()})')
        if role == 'value' and form.parts and form.parts[0].word:
            *place, value = [part.text().strip('()') for part in form.parts if part.word != '=']
            yield self.instead(form, f'(({" ".join(place)}) {value})')
        if form.head() == 'not' and role == 'fact':
            yield self.without(form)
        if form.word and form.word[0].isdigit() and form.word != '1' and form.word != '2':
            yield self.everywhere(form.word, 'n' + form.word)
        if form.word and role in ('fact', 'place', 'atom', 'literal', 'pattern'):
            yield self.instead(form, f'({form.word})')
        if form.head() == 'not' and form.rest() and form.parent is not None and form.parent.head() == 'set':
            yield self.instead(form.parent, f'(unset {form.rest()[0].text()})')

    def whole_section(self, section: Form) -> Iterator[Cure]:
        """The section in which the form stands, each of its parts as it seems to be meant."""
        if section.parent is None or not section.is_list():
            return
        head = (section.head() or '').lower()
        head = SECTION_WORDS.get(head, head)
        if head in grammar.SECTIONS.get(section.parent.head() or '', []) and head != 'action':
            said = self.rewriting.section(head, section.rest())
            if said and said != section.text():
                yield self.part_by_part(section, head) or self.instead(section, said)
            part = self.form
            while part is not None and part.parent is not section:
                part = part.parent
            if part is not None and section.head() == head and head in self.rewriting.rules():
                yield Cure(self.instead(part, ' '.join(self.rewriting.part(head, part))).edits, is_part=True)

    def part_by_part(self, section: Form, head: str) -> Optional[Cure]:
        """A section with those parts alone replaced that are meant otherwise; None where it isn't read part by part."""
        if section.head() != head:
            return None
        if head in ('predicates', 'functions'):
            found = self.rewriting.declarations(head, section.rest())
        elif head in self.rewriting.rules():
            found = [(part, self.rewriting.part(head, part)) for part in section.rest()]
        else:
            return None
        cure = Cure([])
        for part, texts in found:
            if texts != [part.text()]:
                cure = self.both(cure, self.instead(part, ' '.join(texts)) if texts else self.without(part))
        return cure if cure.edits else None

    def undeclared(self) -> Iterator[Cure]:
        """203 and 301."""
        form = self.form
        if form is None or form.word is None or form.parent is None:
            return
        from . import meaning
        kind, known = meaning.kind_of(self.names, form)
        if grammar.role(form) == 'term' and form.word in self.names.functions:
            yield from self.value_of(form)
            return
        for other in (next((name for name in known if name.lower() == form.word.lower()), None), near(form.word, known)):
            if other:
                yield self.everywhere(form.word, other)
                yield self.instead(form, other)
        outside = grammar.turned_out(form.parent)
        if outside and form.parent.parent is not None:
            yield self.instead(form.parent.parent, outside)
        if form.word in grammar.QUERIES + grammar.ITEMS and len(form.parent.rest()) == 1:
            yield self.instead(form.parent, form.parent.rest()[0].text())
        section = form.parent
        while section.parent is not None and section.parent.head() not in grammar.SECTIONS:
            section = section.parent
        yield from self.whole_section(section)
        yield from self.declared(form, kind)

    def value_of(self, form: Form) -> Iterator[Cure]:
        """A function without arguments in parentheses, wherever it stands alone as a term."""
        if self.names.functions[str(form.word)][0]:
            return
        alone = [part for each in self.text.lists for part in each.rest()
                 if part.word == form.word and grammar.role(part) == 'term']
        yield Cure([edit for part in alone for edit in self.instead(part, f'({form.word})').edits])
        yield self.instead(form, f'({form.word})')

    def declared(self, form: Form, kind: str) -> Iterator[Cure]:
        """A declaration of the word: of an object by the type that is wanted, of a type alone."""
        if kind == 'an object' and form.parent is not None:
            types = self.names.signature(form.parent)[1] or []
            wanted = types[form.index() - 1] if 0 < form.index() <= len(types) else None
            for entry in self.names.section(self.names.domain, 'objects'):
                if wanted and entry.head() == wanted:
                    yield self.behind(entry.parts[-1], str(form.word))
        if kind == 'a type':
            listed = self.names.section(self.names.domain, 'types')
            if listed:
                yield self.behind(listed[-1], str(form.word))

    def parameter(self) -> Iterator[Cure]:
        """204."""
        form = self.form
        if form is None or form.parent is None or self.action is None or form.word is None:
            return
        own = self.names.params(self.action)
        wanted = self.wanted_type(form)
        close = near(form.word, own)
        fitting = [name for name, kind in own.items() if kind == wanted]
        here = {part.word for part in form.parent.parts}
        for other in [close] + [name for name in fitting if name not in here]:
            if other:
                yield self.instead(form, other)
        params = next((part for part in self.action.parts if part.head() == 'params'), None)
        if params is not None and wanted:
            yield self.behind(params.parts[-1], f'({form.word} {wanted})')
        elif wanted:
            yield self.behind(self.action.parts[1], f'(params ({form.word} {wanted}))')

    def wanted_type(self, form: Form) -> Optional[str]:
        """The type that is declared for an argument, or None."""
        if form.parent is None:
            return None
        types = self.names.signature(form.parent)[1] or []
        return types[form.index() - 1] if 0 < form.index() <= len(types) else None

    def arguments(self) -> Iterator[Cure]:
        """205: arguments that are missing or too many, and a function whose value has no type."""
        form = self.form
        if form is None or not form.is_list():
            return
        types = self.names.signature(form)[1] or []
        given = [part.text() for part in form.rest()]
        if len(given) < len(types):
            for chosen in itertools.islice(self.filled(types, given), 12):
                yield self.instead(form, '(' + ' '.join([form.head() or ''] + chosen) + ')')
        elif form.head() in self.names.functions:
            yield from self.value_type(str(form.head()))
        for kept in itertools.combinations(given, len(types)) if len(given) > len(types) else []:
            yield self.instead(form, '(' + ' '.join([form.head() or ''] + list(kept)) + ')')

    def filled(self, types: Sequence[str], given: Sequence[str]) -> Iterator[List[str]]:
        """The arguments with those that are missing, by their types."""
        own = self.names.params(self.action) if self.action else {}
        is_pattern = self.form is not None and grammar.role(self.form) == 'pattern'
        for places in itertools.combinations(range(len(types)), len(given)):
            choices, left = [], list(given)
            for place, kind in enumerate(types):
                if place in places:
                    choices.append([left.pop(0)])
                else:
                    choices.append(['_'] if is_pattern else [name for name, t in own.items() if t and self.names.fits(t, kind)]
                                   or self.names.of_type(kind))
            yield from (list(chosen) for chosen in itertools.product(*choices))

    def value_type(self, name: str) -> Iterator[Cure]:
        """A type for the value of a function, where it was forgotten."""
        for entry in self.names.section(self.names.domain, 'functions'):
            if entry.head() == name:
                for kind in self.names.types:
                    yield self.behind(entry.parts[-1], kind)

    def types(self) -> Iterator[Cure]:
        """206 and 302: the arguments in another order."""
        form = self.form
        parent = form if form is not None and form.is_list() else form.parent if form is not None else None
        if parent is None or parent.head() in ('=', 'assign'):
            return
        given = [part.text() for part in parent.rest()]
        for order in itertools.permutations(given):
            if list(order) != given:
                yield self.instead(parent, '(' + ' '.join([parent.head() or '', *order]) + ')')

    def height(self) -> Iterator[Cure]:
        """207: a parameter for the inner value, wherever that stands within a term of the action."""
        from . import meaning
        inner = meaning.inner_of(self.form) if self.form is not None else None
        action = self.action
        if inner is None or action is None or inner.head() not in self.names.functions:
            return
        kind = self.names.functions[str(inner.head())][1]
        name = meaning.named_after(self.names, kind, action)
        asked = f'(k (= {name} {inner.text()}))'
        pre = next((part for part in action.parts if part.head() == 'pre'), None)
        cure = self.both(self.in_section(action, 'params', f'({name} {kind})'),
                         self.behind(pre.parts[0], asked) if pre else self.in_section(action, 'pre', asked))
        for part in self.text.lists:
            if part.text() == inner.text() and self.names.action_of(part) is action and part.parent is not None \
                    and part.parent.head() in self.names.functions:
                cure = self.both(cure, self.instead(part, name))
        yield cure

    def twice(self) -> Iterator[Cure]:
        """202, 210 and 304: without the second."""
        if self.form is not None:
            form = self.form.parent if self.refusal.code == Code.WORLD_TWO_VALUES else self.form
            if form is not None:
                yield self.without(form)
            parent = self.form.parent
            if parent is not None and self.form.index() == 0 and grammar.role(parent) in ('predicates', 'functions'):
                yield self.without(parent)

    def limit(self) -> Iterator[Cure]:
        """208: more objects are of version 2."""
        yield self.version(2)

    def add(self) -> Iterator[Cure]:
        """260."""
        if self.form is not None and self.action is not None:
            yield from (self.instead_or_asked(cure) for cure in adds.cures(self.names, self.form))

    def instead_or_asked(self, cure: adds.Change) -> Cure:
        """A change of the action as a change of the text."""
        if cure.section is None:
            return self.instead(cure.form, cure.text)
        assert self.action is not None
        return self.in_section(self.action, cure.section, cure.text)

    def in_section(self, action: Form, head: str, new: str) -> Cure:
        """A part more for a section of an action, which is put at its place where it is missing."""
        section = next((part for part in action.parts if part.head() == head), None)
        if section is not None:
            return self.behind(section.parts[-1], new)
        order = grammar.SECTIONS['action']
        before = [part for part in action.parts[1:2] + action.parts[2:]
                  if part.word or order.index(part.head() or 'cost') < order.index(head)]
        return self.behind(before[-1], f'({head} {new})')


class Colons:
    """All words with a colon before them, as PDDL writes them."""

    def __init__(self, patient: Patient) -> None:
        self.patient = patient
        self.edits: List[Edit] = []
        for form in patient.text.forms:
            self.look(form)

    def look(self, form: Form) -> None:
        """Takes a form and what stands in it."""
        if form.parts and form.parts[0].word == ':':
            self.section(form)
            return
        at = 0
        while at < len(form.parts):
            if form.parts[at].word == ':' and at + 2 < len(form.parts):
                self.keyword(form.parts[at], form.parts[at + 1], form.parts[at + 2])
                at += 3
            else:
                self.look(form.parts[at])
                at += 1

    def section(self, form: Form) -> None:
        """A list that begins with a colon."""
        head = head_of(form) or ''
        head = SECTION_WORDS.get(head, head)
        if head in LEFT_OUT:
            self.edits += self.patient.without(form).edits
            self.without_name(form)
        elif head == 'action':
            self.edits.append((form.start + 1, form.start + 2, ''))
            for part in form.parts[2:]:
                self.look(part)
        else:
            action = self.patient.names.action_of(form)
            said = Rewriting(self.patient.names, action).section(head, words_of(form))
            self.edits.append((form.start, form.end or form.start, said or form.text()))

    def without_name(self, form: Form) -> None:
        """Where the domain has a name too, it goes as well."""
        parent = form.parent
        if parent is not None and parent.head() == 'domain' and len(parent.parts) > 1 and parent.parts[1].word:
            self.edits += self.patient.without(parent.parts[1]).edits

    def keyword(self, colon: Form, word: Form, value: Form) -> None:
        """`:parameters (..)` within an action."""
        head = SECTION_WORDS.get((word.word or '').lower(), (word.word or '').lower())
        rewriting = Rewriting(self.patient.names, self.patient.names.action_of(word))
        parts = value.parts if head == 'params' else [value] if value.parts else []
        said = rewriting.section(head, parts)
        if head == 'senses' and said:
            said += f' (knows (kw {value.text()}))'
        self.edits.append((colon.start, value.end or colon.start, said or ''))

    def all(self) -> Cure:
        """All of them in the words of the format."""
        return Cure(self.edits)

    def without_marks(self) -> Cure:
        """The words without their colons."""
        return Cure([(found.start(), found.end(), '') for found in re.finditer(':', self.patient.text.code())])


def plain(letter: str) -> str:
    """What is near to a letter that isn't ASCII."""
    known = {'ß': 'ss', '→': '->', '←': '<-', '–': '-', '—': '-', '‘': "'", '’': "'", '“': '"', '”': '"', '…': '..',
             '\u00a0': ' ', '≠': '/='}
    found = unicodedata.normalize('NFKD', letter).encode('ascii', 'ignore').decode('ascii')
    return known.get(letter) or found or '?'


def is_further(refusal: Refusal, was_at: int, said: str, cure: Cure, data: bytes) -> bool:
    """Whether with a cure the file is accepted, or the next fault is another one, outside of what was changed."""
    if said.startswith('accepted'):
        return True
    if not said.startswith('refused'):
        return False
    found, text = read_refusal(said), Text(data)
    at = text.at(found.line, found.column)
    shift = sum(len(new) - (end - start) for start, end, new in cure.edits if start <= at)
    if found.code == refusal.code and at - shift == was_at:
        return False
    before, was = (code // 10 if code < Code.LONG_NAME else Code.LONG_NAME // 10 for code in (found.code, refusal.code))
    changed = cure.places() if cure.is_part else [around(text, *place) for place in cure.places()]
    return before >= was and all(not start <= at < end for start, end in changed)


def around(text: Text, start: int, end: int) -> Tuple[int, int]:
    """The section around a change, in the text that is mended."""
    form = next((form for form in reversed(text.lists) if form.start <= start and (form.end or 0) >= end
                 and form.parent is not None and form.parent.head() in grammar.SECTIONS), None)
    return (form.start, form.end or end) if form is not None and form.head() != 'action' else (start, max(end, start + 1))


def found(text: Text, names: Names, refusal: Refusal, check: Callable[[bytes], str]) -> Optional[Outcome]:
    """The first cure with which the file is accepted, else the first that leads further, or None."""
    begun, best, tried = time.monotonic(), None, set()
    for cure in itertools.islice(Patient(text, names, refusal).cures(), MOST):
        data = cure.done(text.data)
        if (data in tried and not cure.is_part) or data == text.data or time.monotonic() - begun > SECONDS:
            continue
        tried.add(data)
        said = check(data)
        if said.startswith('accepted'):
            return Outcome(cure, data, said)
        if best is None and is_further(refusal, text.at(refusal.line, refusal.column), said, cure, data):
            best = Outcome(cure, data, said)
    return best
