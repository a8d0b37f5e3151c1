"""The reader of parentheses: words and lists with their places, also of a text that is broken."""

import bisect
import re
from typing import Dict, Iterator, List, Optional, Pattern, Tuple, Union

Expression = Union[str, Tuple['Expression', ...]]
"""A word, or a list as a tuple: a term `('loc', 'cup')`, a literal `('not', ('open',))`."""

PKS_WORDS: Pattern[str] = re.compile(r'[A-Za-z0-9_?=-]+|[^\s()]')
"""The words of a file for the planner; each byte that may not stand there is a word by itself."""

ALL_WORDS: Pattern[str] = re.compile(r'[^\s();]+')
"""The words of any other text, as one in PDDL: all that isn't blank, a parenthesis or a comment."""

NESTING = 200
"""The deepest nesting of lists that `read` takes; the language itself has `limits.NESTING`."""

NAME: Pattern[str] = re.compile(r'[A-Za-z][A-Za-z0-9_-]*$')
VARIABLE: Pattern[str] = re.compile(r'\?[A-Za-z][A-Za-z0-9_-]*$')


class Malformed(ValueError):
    """A text whose parentheses don't match, or which isn't what was expected; `line` and `column` tell where."""

    def __init__(self, what: str, line: int = 1, column: int = 1) -> None:
        super().__init__(f'{line}:{column}: {what}')
        self.what, self.line, self.column = what, line, column


class Form:
    """A word or a list, with its place in its text: offset, line and column."""

    def __init__(self, start: int, word: Optional[str] = None, line: int = 1, column: int = 1) -> None:
        self.start = start
        """The offset of its first byte, from 0."""
        self.line, self.column = line, column
        """Its place, both from 1."""
        self.word = word
        """Its word, or None where it is a list."""
        self.end: Optional[int] = start + len(word) if word else None
        """The offset behind its last byte; None of a list that isn't closed."""
        self.parts: List[Form] = []
        """The parts of a list; none of a word."""
        self.parent: Optional[Form] = None
        """The list in which it stands."""
        self.comments: List[str] = []
        """The comments on lines of their own that stand before it, each without its semicolons."""

    def is_list(self) -> bool:
        """Whether it is a list."""
        return self.word is None

    def head(self) -> Optional[str]:
        """The first part of a list where that is a word, or None."""
        return self.parts[0].word if self.parts else None

    def rest(self) -> 'List[Form]':
        """The parts of a list behind the first."""
        return self.parts[1:]

    def index(self) -> int:
        """Its place among its parent's parts, from 0; ValueError where it has no parent."""
        if self.parent is None:
            raise ValueError('a form that stands in no list has no place among its parts')
        return next(i for i, part in enumerate(self.parent.parts) if part is self)

    def text(self) -> str:
        """The form on one line, with one blank between its parts."""
        if self.word is not None:
            return self.word
        return '(' + ' '.join(part.text() for part in self.parts) + ')'

    def short(self, limit: int = 60) -> str:
        """Its text, or the beginning of it with two full stops."""
        text = self.text()
        return text if len(text) <= limit else text[:limit - 3] + '..'

    def expression(self) -> Expression:
        """The form as a word or a tuple."""
        return self.word if self.word is not None else tuple(part.expression() for part in self.parts)


class Text:
    """A text, its lines, and as many forms as can be read.

    Bytes are read one by one, so that offsets and columns count bytes; a string is read by its characters.
    """

    def __init__(self, data: Union[bytes, str], words: Pattern[str] = PKS_WORDS) -> None:
        self._by_bytes = isinstance(data, bytes)
        self.text = data.decode('latin-1') if isinstance(data, bytes) else data
        """Its characters, by which offsets count."""
        self.data = data if isinstance(data, bytes) else data.encode('utf-8', 'surrogateescape')
        """Its bytes."""
        self.starts = [0] + [found.end() for found in re.finditer('\n', self.text)]
        """The offset at which each line begins."""
        self.lists: List[Form] = []
        """All lists, in the order in which they are opened."""
        self.closing: List[int] = []
        """The offsets of all parentheses that close, also of those that close nothing."""
        self.extra: List[int] = []
        """The offsets of parentheses that close nothing."""
        self.open: List[Form] = []
        """The lists that are open at the end, the outermost first."""
        self.too_deep: Optional[Form] = None
        """The first list that is nested deeper than NESTING."""
        self.forms = self._read(words)
        """The forms that stand in no list."""

    def _tokens(self, words: Pattern[str]) -> Iterator[Tuple[int, str]]:
        token = re.compile(rf';[^\n]*|[()]|{words.pattern}')
        for found in token.finditer(self.text):
            yield found.start(), found.group()

    def _stands_alone(self, at: int) -> bool:
        """Whether nothing but blanks stands before it in its line."""
        start = self.text.rfind('\n', 0, at) + 1
        return not self.text[start:at].strip()

    def _read(self, words: Pattern[str]) -> List[Form]:
        top = Form(-1)
        stack = [top]
        comments: List[str] = []
        for at, token in self._tokens(words):
            if token.startswith(';'):
                if self._stands_alone(at):
                    comments.append(token.lstrip(';').strip())
                continue
            if token == ')':
                self.closing.append(at)
                if len(stack) == 1:
                    self.extra.append(at)
                else:
                    stack.pop().end = at + 1
            else:
                form = Form(at, None if token == '(' else token, *self.place(at))
                form.comments, form.parent = comments, stack[-1]
                stack[-1].parts.append(form)
                if form.is_list():
                    self.lists.append(form)
                    stack.append(form)
                    if len(stack) == NESTING + 2 and self.too_deep is None:
                        self.too_deep = form
            comments = []
        self.open = stack[1:]
        for form in top.parts:
            form.parent = None
        return top.parts

    def at(self, line: int, column: int) -> int:
        """The offset of a place."""
        return self.starts[line - 1] + column - 1

    def place(self, at: int) -> Tuple[int, int]:
        """The line and the column of an offset, both from 1."""
        line = bisect.bisect_right(self.starts, at)
        return line, at - self.starts[line - 1] + 1

    def line(self, number: int) -> str:
        """A line, counted from 1, without its line feed."""
        end = self.starts[number] - 1 if number < len(self.starts) else len(self.text)
        return self.text[self.starts[number - 1]:end]

    def code(self) -> str:
        """Its characters, with blanks in place of comments."""
        return re.sub(r';[^\n]*', lambda comment: ' ' * len(comment.group()), self.text)

    def code_end(self, number: int) -> int:
        """The offset at which the code of a line ends, before blanks and a comment."""
        return self.starts[number - 1] + len(self.line(number).split(';')[0].rstrip())

    def balance(self) -> Dict[int, int]:
        """For each line that has code, the lists that it opens less those that it closes."""
        found = {n: 0 for n in range(1, len(self.starts) + 1) if self.code_end(n) > self.starts[n - 1]}
        for form in self.lists:
            found[form.line] += 1
        for at in self.closing:
            found[self.place(at)[0]] -= 1
        return found

    def caret(self, line: int, column: int) -> str:
        """A line with a caret below the column, each behind four blanks; long lines are cut."""
        before, shown = self.line(line)[:column - 1], self.line(line).rstrip('\r').replace('\t', ' ')
        if self._by_bytes:
            before, shown = (part.encode('latin-1').decode('utf-8', 'replace') for part in (before, shown))
        at = len(before)
        if len(shown) > 90 and at > 60:
            cut = at - 45
            shown, at = '..' + shown[cut:], at - cut + 2
        shown = shown if len(shown) <= 90 else shown[:88] + '..'
        return f'    {shown}\n    {" " * at}^'

    def first_comment(self) -> List[str]:
        """The lines of the comment with which the text begins, without their semicolons."""
        found = []
        for line in self.text.split('\n'):
            if not line.startswith(';'):
                break
            found.append(line.lstrip(';').strip())
        return found

    def form_at(self, at: int) -> Optional[Form]:
        """The form that begins at an offset, or None."""
        stack = list(reversed(self.forms))
        while stack:
            form = stack.pop()
            if form.start == at:
                return form
            stack += reversed(form.parts)
        return None

    def begins_line(self, form: Form) -> Optional[int]:
        """The column of a form that is the first of its line, or None."""
        return form.column if self._stands_alone(form.start) else None

    def need_balance(self) -> None:
        """Malformed where a parenthesis closes nothing, a list isn't closed, or one is nested deeper than NESTING."""
        if self.extra:
            raise Malformed('this `)` closes nothing', *self.place(self.extra[0]))
        if self.open:
            raise Malformed('this list isn\'t closed', self.open[-1].line, self.open[-1].column)
        if self.too_deep:
            raise Malformed('lists are nested too deep', self.too_deep.line, self.too_deep.column)


def read(data: Union[bytes, str], words: Pattern[str] = PKS_WORDS) -> List[Form]:
    """The forms of a text; Malformed where its parentheses don't match."""
    text = Text(data, words)
    text.need_balance()
    return text.forms


def expressions(data: Union[bytes, str], words: Pattern[str] = ALL_WORDS) -> List[Expression]:
    """The forms of a text as words and tuples; Malformed where its parentheses don't match."""
    return [form.expression() for form in read(data, words)]


def written(expression: Expression) -> str:
    """An expression as it is printed: lists in parentheses, one blank between parts."""
    if isinstance(expression, str):
        return expression
    return '(' + ' '.join(written(part) for part in expression) + ')'
