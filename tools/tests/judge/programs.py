"""What a tool does with the files of a maker: it compares the program with another one, or with the second planner."""

import os
import random
from collections import Counter
from typing import Callable, List, Optional, Tuple

import pkslib

from .comparison import Comparison, Made, derive_text
from .generator import Maker, text_of
from .problems import read_problem

SECONDS = 3
"""The time that a call may take where two programs are compared."""

COUNT = 300
"""How many files a tool makes unless it is told."""


class OfFirst(Comparison):
    """Compares the program with the second planner; each file is the first that is made."""

    def made(self, number: int) -> Made:
        """The file of a number."""
        return self.attempt(number, 0)


def text_and_depth(compared: Comparison, number: int) -> Tuple[str, int]:
    """The text of the file of a number, and to what depth it is planned."""
    maker = compared.maker(random.Random(f'{number}/0'))
    forms = maker.forms()
    derived = derive_text(read_problem(text_of(forms)))
    return text_of(forms, compared.adds(maker, forms, derived)), maker.depth


def printed(program: str, text: str, depth: int) -> Optional[str]:
    """What a program prints of a plan; None where it takes too long."""
    try:
        return pkslib.call(['plan', str(depth)], text, SECONDS, program).text
    except pkslib.TimedOut:
        return None


def kind_of(one: Optional[str], other: Optional[str]) -> List[str]:
    """As what a file is counted, by what the two print."""
    if one is None or other is None:
        return ['not ended']
    found = ['refused' if one.startswith('refused') else 'accepted']
    return found + ['with a plan'] * one.startswith('plan') + ['different'] * (one != other)


def two_programs(compared: Comparison, other: str, numbers: range) -> int:
    """Compares the plans of two programs, and returns the status."""
    counts: Counter[str] = Counter()
    for number in numbers:
        text, depth = text_and_depth(compared, number)
        one = printed(compared.program, text, depth)
        own = kind_of(one, one and printed(other, text, depth))
        counts.update(own)
        if 'different' in own:
            print(f'{compared.kept(f"file-{number}", text)}: `plan {depth}` differs')
    kinds = ('accepted', 'refused', 'not ended', 'with a plan', 'different')
    print(f'{len(numbers)} files: ' + ', '.join(f'{counts[kind]} {kind}' for kind in kinds))
    return 1 if counts['different'] else 0


def compare(tool: str, words: List[str], maker: Callable[[random.Random], Maker]) -> int:
    """Compares the files of the numbers from the seed on, as the words of a tool say, and returns the status."""
    count = int(words[1]) if words[1:] else COUNT
    seed = int(words[2]) if words[2:] else 1
    compared = OfFirst(os.path.abspath(pkslib.find(words[0] if words else None)), maker=maker, tool=tool)
    numbers = range(seed, seed + count)
    if words[3:]:
        return two_programs(compared, os.path.abspath(pkslib.find(words[3])), numbers)
    for number in numbers:
        compared.file(number)
    for fault in compared.counts.faults:
        print(fault)
    print(compared.counts.summary())
    return 1 if compared.counts.faults else 0
