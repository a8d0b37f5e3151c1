"""What the commands in `tools` have in common: `--help`, the reading of files, statuses, and what is said of faults."""

import argparse
import os
import re
import sys
from typing import Callable, NoReturn

from .errors import PksError, Refused
from .forms import Malformed
from .limits import DEPTH, Status
from .program import FOLDER


class Fault(Exception):
    """Ends a command with the status 1, and this sentence on standard error."""


WORDS = 2
"""The status where a file can't be read, the words are wrong, or the program doesn't run."""


def is_installed() -> bool:
    """Whether this is an installed command, and not one of a checkout."""
    return os.path.isfile(os.path.join(os.path.dirname(FOLDER), 'INSTALLED'))


def name() -> str:
    """The command's name, as a user types it."""
    own = os.path.basename(sys.argv[0])
    return f'pks-{own}' if is_installed() else own


def spoken(text: str) -> str:
    """A sentence that names commands as in a checkout, `tools/why` and `./pks`, with the names that they have here."""
    if not is_installed():
        return text
    return re.sub(r'(?<![\w/.-])\./pks\b', 'pks', re.sub(r'(?<![\w/.-])tools/(?=[a-z])', 'pks-', text))


def parser(text: str) -> argparse.ArgumentParser:
    """A reader of words, whose `--help` shows the text: a line on what the command does, then the rest."""
    return argparse.ArgumentParser(prog=name(), description=spoken(text), allow_abbrev=False,
                                   formatter_class=argparse.RawDescriptionHelpFormatter)


def depth(word: str) -> int:
    """A depth among the words of a command; argparse tells of one that is none."""
    if not word.isdecimal() or int(word) > DEPTH:
        raise argparse.ArgumentTypeError(f'a depth is a number from 0 to {DEPTH}, and not {word}')
    return int(word)


def seconds(word: str) -> float:
    """A time in seconds among the words of a command; argparse tells of one that is none."""
    try:
        number = float(word)
    except ValueError:
        number = 0.0
    if not 0 < number < float('inf'):
        raise argparse.ArgumentTypeError(f'a time is a number of seconds above 0, and not {word}')
    return number


def read(path: str) -> bytes:
    """The bytes of a file, of standard input where the path is `-`; OSError where it can't be read."""
    if path == '-':
        return sys.stdin.buffer.read()
    with open(path, 'rb') as file:
        return file.read()


def read_text(path: str) -> str:
    """A printed text, as `read`; a byte that isn't ASCII is shown as it is in Latin 1."""
    return read(path).decode('latin-1')


def say(text: str) -> None:
    """A line on standard error, behind the command's name."""
    sys.stderr.write(f'{name()}: {spoken(text)}\n')
    sys.stderr.flush()


def run(main: Callable[[], int]) -> NoReturn:
    """Ends with the status of `main`; a fault is told on standard error in one line.

    A refused file ends with 3, a Fault and a text that isn't what was expected with 1, everything else with 2.
    """
    try:
        status = main()
        sys.stdout.flush()
    except BrokenPipeError:
        # Whoever reads it is gone.
        os.dup2(os.open(os.devnull, os.O_WRONLY), 1)
        status = 1
    except Refused as fault:
        say(f'{fault} (tools/why tells more)')
        status = int(Status.REFUSED)
    except (Fault, Malformed) as fault:
        say(str(fault))
        status = 1
    except OSError as fault:
        say(f'{fault.filename}: {fault.strerror}' if fault.filename else str(fault))
        status = WORDS
    except PksError as fault:
        say(str(fault))
        status = WORDS
    except KeyboardInterrupt:
        status = 130
    sys.exit(status)
