"""PDDL as lists of words, each with its place in its file."""

from typing import Collection, List, NoReturn, Optional, Sequence, Tuple, Union

import pkslib
from pkslib import ALL_WORDS, Text, gained_parenthesis, lost_parenthesis


class Refusal(Exception):
    """Something that can't be said: where, what it is, and what to do instead."""

    def __init__(self, form: Optional['Form'], what: str, instead: str) -> None:
        Exception.__init__(self, what)
        self.form, self.what, self.instead = form, what, instead


class Source:
    """A file and its lines."""

    def __init__(self, path: str, text: str) -> None:
        self.path, self.text, self.lines = path, text, text.split('\n')

    def first_comment(self) -> List[str]:
        """The lines of the comment with which the file begins."""
        found = []
        for line in self.lines:
            if not line.startswith(';'):
                break
            found.append(line.lstrip(';').strip())
        return found


class Form:
    """A word, in small letters and as it was written, or a list of forms."""

    def __init__(self, source: Source, line: int, column: int, raw: Optional[str] = None,
                 comments: Sequence[str] = ()) -> None:
        self.source, self.line, self.column = source, line, column
        self.raw = raw
        self.word = None if raw is None else raw.lower()
        self.parts = []
        self.comments = list(comments)

    def is_list(self) -> bool:
        """Whether it is a list."""
        return self.word is None

    def is_variable(self) -> bool:
        """Whether it is a variable."""
        return self.word is not None and self.word.startswith('?')

    def head(self) -> Optional[str]:
        """The first part of a list where that is a word, or None."""
        return self.parts[0].word if self.parts else None

    def rest(self) -> 'List[Form]':
        """The parts of a list behind the first."""
        return self.parts[1:]

    def mentions(self, words: Collection[str]) -> bool:
        """Whether one of these words stands in it."""
        if self.word is not None:
            return self.word in words
        return any(part.mentions(words) for part in self.parts)

    def text(self) -> str:
        """The form on one line, as it was written."""
        if self.word is not None:
            return self.raw
        return '(' + ' '.join(part.text() for part in self.parts) + ')'

    def shown(self) -> str:
        """Its text, or the beginning of it."""
        text = self.text()
        return text if len(text) <= 48 else text[:44] + ' ..)'


def forms(source: Source) -> List[Form]:
    """The forms of a file."""
    read = Text(source.text, ALL_WORDS)
    if read.extra or read.open:
        refuse_parentheses(source, read)
    return [of_source(source, form) for form in read.forms]


def refuse_parentheses(source: Source, read: Text) -> NoReturn:
    """Refuses a text whose parentheses don't match, with the place by the indentation where that tells one."""
    lost, gained = lost_parenthesis(read), gained_parenthesis(read)
    if lost and (not gained or lost[1] <= gained[1]):
        outer, line, _ = lost
        line = line_before(source, line)
        raise Refusal(of_source(source, outer), f'by the indentation `{opening(outer)}` lost a `)`',
                      f'Write one more at the end of line {line}: `{source.lines[line - 1].strip()})`.')
    if gained:
        outer, _ = gained
        line = read.place(outer.end - 1)[0]
        raise Refusal(Form(source, *read.place(outer.end - 1)), f'by the indentation this `)` closes `{opening(outer)}` too early',
                      f'Take it away at the end of line {line}.')
    if read.extra:
        raise Refusal(Form(source, *read.place(read.extra[0])), 'this `)` closes nothing',
                      'Take it away, or look for a list above that was closed too early.')
    raise Refusal(of_source(source, read.open[-1]), 'this list isn\'t closed', 'Add the `)` that is missing.')


def opening(form: Union[Form, pkslib.Form]) -> str:
    """The first words of a list."""
    return '(' + ' '.join(part.word for part in form.parts[:2] if part.word)


def line_before(source: Source, line: int) -> int:
    """The last line before this one that has more than a comment."""
    line -= 1
    while line > 1 and not source.lines[line - 1].split(';')[0].strip():
        line -= 1
    return line


def of_source(source: Source, read: pkslib.Form) -> Form:
    """What was read, as a form of this file."""
    form = Form(source, read.line, read.column, read.word, read.comments)
    form.parts = [of_source(source, part) for part in read.parts]
    return form


def listed(form: Form, parts: Sequence[Form]) -> Form:
    """The form as a list of these parts."""
    form.parts = list(parts)
    return form


def definitions(source: Source, kind: str) -> List[Form]:
    """All `(define (KIND NAME) ..)` of a file."""
    return [form for form in forms(source)
            if form.head() == 'define' and len(form.parts) > 1 and form.parts[1].head() == kind]


def name_of(definition: Form) -> Optional[str]:
    """The name of a domain or a problem, in small letters, or None."""
    parts = definition.parts[1].parts
    return parts[1].word if len(parts) > 1 else None


def definition(sources: Sequence[Source], kind: str, name: Optional[str] = None) -> Form:
    """The domain of the first file that has one, or the problem of the last one; of several the one of this name."""
    for source in sources if kind == 'domain' else reversed(sources):
        found = definitions(source, kind)
        if name is not None:
            found = [form for form in found if name_of(form) == name.lower()]
        if len(found) > 1 and kind == 'problem':
            names = [str(name_of(form)) for form in found]
            raise Refusal(found[1], f'there are {len(found)} problems in this file: {", ".join(names)}',
                          'Say which is meant: `tools/from-pddl --problem NAME ..`.' if len(set(names)) == len(names)
                          else 'Take one away, or give them different names.')
        if found:
            return found[0]
    if any(form.head() == 'pks' for source in sources for form in forms(source)):
        raise Refusal(Form(sources[-1], 1, 1), 'this is a file for the planner, and not in PDDL',
                      'It needs no translation: `tools/why FILE` says whether it is accepted.')
    which = kind if name is None else f'{kind} {name}'
    raise Refusal(Form(sources[-1], 1, 1), f'there is no `(define ({which if name else kind + " NAME"}) ..)` in what was read',
                  f'The {kind} is wanted too: `tools/from-pddl DOMAIN PROBLEM`, or a file that has both.')


def typed(parts: Sequence[Form]) -> List[Tuple[Form, Optional[Form]]]:
    """The names of a typed list, each with the form of its type, or None where it has none."""
    pairs, waiting, at = [], [], 0
    while at < len(parts):
        if parts[at].word == '-':
            if at + 1 == len(parts):
                raise Refusal(parts[at], 'no type stands behind this `-`', 'Write one.')
            pairs += [(name, parts[at + 1]) for name in waiting]
            waiting, at = [], at + 1
        else:
            waiting.append(parts[at])
        at += 1
    return pairs + [(name, None) for name in waiting]
