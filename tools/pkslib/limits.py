"""The limits of the format, the statuses of the program and the codes of its refusals, as docs/FORMAT.md has them."""

import enum
from typing import Dict, NamedTuple

BYTES = 262144
"""The most bytes of an input."""

NAME_BYTES = 64
"""The most bytes of a name, and of an answer of a dialogue."""

TYPES, PREDICATES, FUNCTIONS, ACTIONS = 16, 32, 32, 64
"""The most types, predicates, functions and actions of a domain."""

OBJECTS: Dict[int, int] = {1: 64, 2: 256}
"""The most objects, by the version of the file."""

PREDICATE_ARGUMENTS, FUNCTION_ARGUMENTS, PARAMETERS = 3, 2, 4
"""The most arguments of a predicate, of a function and of an action."""

EFFECTS = SENSES = ADDS = PRECONDITIONS = 16
"""The most effects, senses, adds and preconditions of an action."""

GOALS = 16
"""The most queries of a goal; the least is one."""

CONDITION = 4
"""The most literals of a condition, of a `kw` formula and of a sense, and the most queries of an `if`."""

GROUP_LEAST, GROUP = 2, 16
"""The least and the most literals of a `kx` group."""

WILDCARDS = 2
"""The most wildcards of a pattern."""

COST = 9999
"""The greatest cost of an action; the least is 1."""

CASES = 16
"""The most objects left for cases."""

DEPTH = 16
"""The greatest depth."""

BENCH = 64
"""The most objects of a generated file."""

HEIGHT = 2
"""The greatest height of a term."""

NESTING = 12
"""The deepest nesting of lists, a list that stands in no other having nesting 1."""


class Status(enum.IntEnum):
    """How the program ends."""

    DONE = 0
    NO_PLAN = 1
    WORDS = 2
    REFUSED = 3
    READ_FAULT = 4
    WRITE_FAULT = 5
    MEMORY = 6
    NO_WORDS = 7


STATUSES: Dict[Status, str] = {
    Status.DONE: 'the job was done and its text written whole',
    Status.NO_PLAN: 'no plan of at most that depth is derived',
    Status.WORDS: 'the words ask for no job',
    Status.REFUSED: 'the file is refused',
    Status.READ_FAULT: 'standard input could not be read',
    Status.WRITE_FAULT: 'standard output could not be written, so a part of the text may be missing',
    Status.MEMORY: 'memory was wanting, and nothing was written',
    Status.NO_WORDS: 'the environment did not give the program its words',
}
"""Each status in words."""


class Code(enum.IntEnum):
    """Why a file, a world or an answer is refused."""

    BYTES = 100
    ASCII = 101
    BAD_BYTE = 110
    UNCLOSED = 111
    UNOPENED = 112
    NESTING = 113
    VERSION = 120
    DOMAIN = 121
    PROBLEM = 122
    WORLD = 123
    FORM = 124
    LONG_NAME = 200
    NOT_DECLARED = 201
    TWICE = 202
    UNDECLARED = 203
    PARAMETER = 204
    ARGUMENTS = 205
    TYPE = 206
    HEIGHT = 207
    LIMIT = 208
    NO_VALUE = 209
    GROUP = 210
    WILDCARDS = 211
    ADD = 260
    CLASH = 270
    WORLD_FORM = 300
    WORLD_UNDECLARED = 301
    WORLD_FACT = 302
    WORLD_NO_VALUE = 303
    WORLD_TWO_VALUES = 304
    WORLD_MISSING = 310
    WORLD_INCOMPATIBLE = 311
    ANSWER_UNFIT = 320
    ANSWER_MISSING = 321


CODES: Dict[Code, str] = {
    Code.BYTES: 'the file is too long',
    Code.ASCII: 'a byte that isn\'t ASCII',
    Code.BAD_BYTE: 'a byte that may not stand here',
    Code.UNCLOSED: 'a list isn\'t closed',
    Code.UNOPENED: 'a `)` closes nothing',
    Code.NESTING: 'lists are nested too deep',
    Code.VERSION: 'the file doesn\'t begin with its version',
    Code.DOMAIN: 'the second form isn\'t the domain',
    Code.PROBLEM: 'the third form isn\'t the problem',
    Code.WORLD: 'a form that isn\'t the world',
    Code.FORM: 'a form that isn\'t what the grammar has here',
    Code.LONG_NAME: 'a name is too long',
    Code.NOT_DECLARED: 'a predicate may not be called `not`',
    Code.TWICE: 'a name is declared twice',
    Code.UNDECLARED: 'a name isn\'t declared',
    Code.PARAMETER: 'a parameter that the action doesn\'t have',
    Code.ARGUMENTS: 'the wrong number of arguments',
    Code.TYPE: 'a term of the wrong type',
    Code.HEIGHT: 'a term within a term within a term',
    Code.LIMIT: 'a limit is passed',
    Code.NO_VALUE: 'a function that can have no value',
    Code.GROUP: 'a group has a literal twice',
    Code.WILDCARDS: 'a third wildcard',
    Code.ADD: 'an add that nothing justifies',
    Code.CLASH: 'the start contradicts itself',
    Code.WORLD_FORM: 'a form that a world doesn\'t have',
    Code.WORLD_UNDECLARED: 'a name that isn\'t declared',
    Code.WORLD_FACT: 'a fact that doesn\'t fit its declaration',
    Code.WORLD_NO_VALUE: 'a place without a value',
    Code.WORLD_TWO_VALUES: 'a place has two values',
    Code.WORLD_MISSING: '`exec` without a world',
    Code.WORLD_INCOMPATIBLE: 'the world isn\'t as the start says',
    Code.ANSWER_UNFIT: 'an answer that isn\'t fit',
    Code.ANSWER_MISSING: 'a missing answer',
}
"""Each code in words."""


class Refusal(NamedTuple):
    """A line `refused LINE:COLUMN CODE ..`."""

    line: int
    column: int
    code: int
    rest: str
    """What stands behind the code, as ` item 3`, without the blank before it."""

    def __str__(self) -> str:
        """The line as the program prints it."""
        return f'refused {self.line}:{self.column} {int(self.code)}' + (f' {self.rest}' if self.rest else '')

    def title(self) -> str:
        """The code in words."""
        return CODES[Code(self.code)] if self.code in set(Code) else 'an unknown code'


def read_refusal(line: str) -> Refusal:
    """The refusal that a line tells; ValueError where it tells none."""
    words = line.split()
    if len(words) < 3 or words[0] != 'refused' or ':' not in words[1]:
        raise ValueError(f'no refusal: {line!r}')
    number, _, column = words[1].partition(':')
    return Refusal(int(number), int(column), int(words[2]), ' '.join(words[3:]))
