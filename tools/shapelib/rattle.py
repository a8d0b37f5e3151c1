"""Functions and types of Rattle files, read as `rt fmt` writes them."""

import glob
import os
import re
from dataclasses import dataclass
from typing import Iterator, List

from .crates import TOP, read

FUNCTION = re.compile(r'^[ \t]*(?:pub(?:\(crate\))? )?(?:const )?fn (\w+)', re.M)
TYPE = re.compile(r'^(?:pub(?:\(crate\))? )?(?:struct|enum|trait|type) (\w+)', re.M)
CLAUSE = re.compile(r'(?:ensures|requires|decreases)\b[^{]*')
LITERAL = re.compile(r'''//[^\n]*|'(?:\\.|[^'\\\n])'|r(?P<hashes>#+)".*?"(?P=hashes)|r?"(?:\\.|[^"\\])*"''', re.S)
PAIRS = {'(': ')', '[': ']', '{': '}', '<': '>'}


@dataclass(frozen=True)
class Function:
    """A function: its file, its name, how many parameters it has beside `self`, its contract, and the lines from
    that of its name over that behind its parameters to that of its body."""
    file: str
    name: str
    parameters: int
    contract: str
    line: int
    contract_line: int
    body_line: int


def crate_of(file: str) -> str:
    """The crate to which a path under crates/ leads."""
    return file.split('/')[1]


def source_files(crate: str = '*') -> List[str]:
    """The paths of the Rattle files of a crate, or of all crates."""
    found = glob.glob(os.path.join(TOP, 'crates', crate, 'src', '**', '*.rt'), recursive=True)
    return sorted(os.path.relpath(f, TOP) for f in found)


def behind(text: str, at: int) -> int:
    """The place behind the bracket that closes the one at this place."""
    opening, depth = text[at], 0
    closing = PAIRS[opening]
    while at < len(text):
        if text[at] == opening:
            depth += 1
        elif text[at] == closing and text[at - 1] not in '-=':
            depth -= 1
            if depth == 0:
                return at + 1
        at += 1
    return at


def parameters_in(text: str) -> int:
    """How many parameters stand between parentheses, `self` not counted."""
    depth, parts = 0, ['']
    for k, c in enumerate(text):
        if c in '([{<':
            depth += 1
        elif c in ')]}' or (c == '>' and text[k - 1] not in '-='):
            depth -= 1
        if c == ',' and depth == 0:
            parts.append('')
        else:
            parts[-1] += c
    parts = [p.strip() for p in parts if p.strip()]
    return sum(1 for p in parts if not re.fullmatch(r"(?:&(?:'\w+ )?)?(?:mut )?self", p))


def without_texts(text: str) -> str:
    """A file's text whose strings are empty, each line in its place."""
    def emptied(found: 're.Match[str]') -> str:
        return found.group() if found.group().startswith(('/', "'")) else '""' + '\n' * found.group().count('\n')
    return LITERAL.sub(emptied, text)


def contract_from(text: str, at: int) -> int:
    """The end of the contract of a function whose parameters end at this place: where its body or its `;` stands."""
    while at < len(text) and text[at] not in '{;':
        clause = CLAUSE.match(text, at)
        if clause:
            at = behind(text, clause.end())
        elif text.startswith('//', at):
            at = text.index('\n', at)
        else:
            at = behind(text, at) if text[at] in '([' else at + 1
    return at


def functions_of(file: str) -> Iterator[Function]:
    """The functions of a file, in order."""
    text = read(file)
    for found in FUNCTION.finditer(text):
        start = behind(text, found.end()) if text[found.end()] == '<' else found.end()
        begin = behind(text, start)
        end = contract_from(text, begin)
        first = text.count('\n', 0, found.start()) + 1
        yield Function(file, found.group(1), parameters_in(text[start + 1:begin - 1]), text[begin:end],
                       first, first + text.count('\n', found.start(), begin),
                       first + text.count('\n', found.start(), end))
