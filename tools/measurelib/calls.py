"""What calls of the program take."""

import glob
import os
import resource
import shutil
import subprocess
import tempfile
from typing import Dict, Iterator, List, NamedTuple, Sequence

TOP = os.path.dirname(os.path.dirname(os.path.dirname(os.path.abspath(__file__))))
EXAMPLES = os.path.join(TOP, 'examples')

TIMES, SHORT = 3, 1.0
"""A call that takes less than so many seconds is made so often."""

DEPTH = 16
"""The depth where a file names no call, and no list beside it a depth."""


class Call(NamedTuple):
    """A file, and the words of a call over it."""

    path: str
    words: str

    @property
    def name(self) -> str:
        """The file's name."""
        return os.path.splitext(os.path.basename(self.path))[0]


class Row(NamedTuple):
    """What one call took, and the first line that it printed."""

    call: Call
    said: str
    seconds: float
    mb: float

    def shown(self) -> str:
        """The seconds, with two digits that count."""
        return f'{self.seconds:.2f}' if self.seconds < 10 else f'{self.seconds:.0f}'

    def held(self, least: float) -> str:
        """The MB, where they are more than those of a call that does nothing."""
        return f'{self.mb:.0f}' if self.mb > least + 1 else '–'


def calls(paths: Sequence[str]) -> Iterator[Call]:
    """The calls over these files, and over all files of these folders; over the examples where there are none."""
    for path in paths or [EXAMPLES]:
        if os.path.isdir(path):
            asked = depths(path)
            for file in sorted(glob.glob(os.path.join(path, '*.pks'))):
                yield from of_file(file, asked)
        else:
            yield from of_file(path, {})


def depths(folder: str) -> Dict[str, str]:
    """The depth to which each file of a folder is planned, where its file LIST has lines NAME DEPTH .. ."""
    found = {}
    if os.path.isfile(os.path.join(folder, 'LIST')):
        with open(os.path.join(folder, 'LIST'), encoding='utf-8') as file:
            for line in file:
                words = line.split()
                if len(words) > 1 and words[1].isdecimal():
                    found[words[0]] = words[1]
    return found


def of_file(path: str, asked: Dict[str, str]) -> Iterator[Call]:
    """The calls that the file's comments name, or else one of `plan`."""
    with open(path, encoding='latin-1') as file:
        named = [line[len('; ./pks '):].strip() for line in file if line.startswith('; ./pks ')]
    name = os.path.splitext(os.path.basename(path))[0]
    for words in named or [f'plan {asked.get(name, DEPTH)}']:
        yield Call(path, words)


def floor() -> float:
    """The MB of a call that does nothing: it begins as a copy of this script, so that less isn't told of any call."""
    return once(Call(os.devnull, ''), shutil.which('true') or 'true', 1).mb


def measured(call: Call, program: str, limit: int) -> Row:
    """What a call takes: the least of some, where it is short."""
    row = once(call, program, limit)
    for _ in range(TIMES - 1 if row.seconds < SHORT else 0):
        row = min(row, once(call, program, limit), key=lambda one: one.seconds)
    return row


def once(call: Call, program: str, limit: int) -> Row:
    """What a call takes."""
    def bound() -> None:
        resource.setrlimit(resource.RLIMIT_CPU, (limit, limit + 1))

    with tempfile.TemporaryFile() as printed, open(call.path, 'rb') as source:
        child = subprocess.Popen([program, *call.words.split()], stdin=source, stdout=printed,
                                 stderr=subprocess.DEVNULL, preexec_fn=bound)
        _, status, used = os.wait4(child.pid, 0)
        child.returncode = status
        printed.seek(0)
        said: List[str] = printed.read(200).decode('ascii', 'replace').splitlines()[:1]
    answer = said[0] if said else f'over {limit} s' if os.WIFSIGNALED(status) else f'status {os.WEXITSTATUS(status)}'
    return Row(call, answer, used.ru_utime + used.ru_stime, used.ru_maxrss / 1024)
