"""Finds the program, and calls it. Nothing here ever begins to prove or to build it."""

import os
import re
import shutil
import subprocess
from typing import IO, Dict, List, NamedTuple, Optional, Sequence, Union

from . import limits
from .errors import Failed, NoPlan, NoProgram, Refused, TimedOut
from .limits import Status

FOLDER = os.path.dirname(os.path.dirname(os.path.abspath(__file__)))
"""The folder of the tools."""

BUILT = os.path.join('crates', 'pks', 'out', 'pks')
"""The built program in a checkout."""


def _behind(path: str) -> str:
    """The program behind a path: of the script of a checkout the program that it builds, else the path itself."""
    real = os.path.realpath(path)
    top = os.path.dirname(real)
    is_script = os.path.isfile(os.path.join(top, 'crates.txt')) and os.path.isdir(os.path.join(top, 'crates'))
    return os.path.join(top, BUILT) if is_script else path


def _runs(path: str) -> bool:
    return os.path.isfile(path) and os.access(path, os.X_OK)


def _named(name: str, who: str) -> str:
    """The program that somebody names: a path, or a command on the PATH."""
    found = name if os.sep in name else shutil.which(name) or name
    behind = _behind(os.path.abspath(found))
    if _runs(behind):
        return behind
    if behind != os.path.abspath(found):
        raise NoProgram(f'{who} {name}, which has not built its program yet: {behind} is not there')
    raise NoProgram(f'{who} {name}, and no program is there')


def find(given: Optional[str] = None) -> str:
    """The path of the program; NoProgram where there is none.

    It is the one that is given; else the one that the environment variable PKS names; else the one beside the
    tools, which is the built program of their checkout, or `pks` in their own folder; else `pks` on the PATH.
    Where one of these is the script of a checkout, the program that this script has built is meant.
    """
    if given:
        return _named(given, 'the program that was given is')
    if os.environ.get('PKS'):
        return _named(os.environ['PKS'], 'the variable PKS names')
    beside = [os.path.join(os.path.dirname(FOLDER), BUILT), os.path.join(FOLDER, 'pks')]
    on_path = shutil.which('pks')
    for path in beside + ([_behind(on_path)] if on_path else []):
        if _runs(path):
            return path
    raise NoProgram(f'the program is not there: the variable PKS is not set, {beside[0]} is not built, and there is '
                    'no built `pks` on the PATH. `./pks check < FILE` builds it, which takes half an hour or more; '
                    'or let PKS name a program')


class Answer(NamedTuple):
    """How a call ended: the status, and what went to standard output."""

    status: int
    text: str


Stream = Union[None, int, IO[bytes]]
"""A stream of the program: a pipe, a file, or that of this process."""


def begin(words: Sequence[str], program: Optional[str] = None, stdin: Stream = None, stdout: Stream = None,
          stderr: Stream = None, bufsize: int = -1) -> 'subprocess.Popen[bytes]':
    """The program begun with these words; NoProgram where it doesn't run, TypeError where they are one text."""
    if isinstance(words, str):
        raise TypeError(f'the words are a list, {words.split()!r} and not {words!r}')
    path = find(program)
    try:
        return subprocess.Popen([path, *words], bufsize=bufsize, stdin=stdin, stdout=stdout, stderr=stderr)
    except OSError as fault:
        raise NoProgram(f'{path} does not run: {fault}') from fault


def call(words: Sequence[str], data: Union[bytes, str] = b'', seconds: Optional[float] = None,
         program: Optional[str] = None) -> Answer:
    """The answer of the program to these words and this input, whatever its status.

    NoProgram where it doesn't run, TimedOut where it isn't ended within these seconds; it is stopped then.
    """
    sent = data.encode('utf-8', 'surrogateescape') if isinstance(data, str) else data
    child = begin(words, program, stdin=subprocess.PIPE, stdout=subprocess.PIPE)
    try:
        text, _ = child.communicate(sent, timeout=seconds)
    except BaseException as fault:
        child.kill()
        child.wait()
        if isinstance(fault, subprocess.TimeoutExpired):
            raise TimedOut(' '.join(words), seconds or 0) from None
        raise
    return Answer(child.returncode, text.decode('ascii', 'replace'))


def ask(words: Sequence[str], data: Union[bytes, str] = b'', seconds: Optional[float] = None,
        program: Optional[str] = None) -> str:
    """What the program prints where the job is done.

    NoPlan where no plan is derived, Refused where the file is refused, Failed where the program ends otherwise,
    NoProgram and TimedOut as `call`.
    """
    answer = call(words, data, seconds, program)
    need_done(words, answer)
    return answer.text


def need_done(words: Sequence[str], answer: Answer) -> None:
    """Raises what an answer other than a done job means: NoPlan, Refused or Failed."""
    last = (answer.text.splitlines() or [''])[-1]
    none = re.fullmatch(r'none to depth (\d+)', last)
    if answer.status == Status.DONE:
        return
    if answer.status == Status.REFUSED and last.startswith('refused '):
        raise Refused(limits.read_refusal(last))
    if answer.status == Status.NO_PLAN and none:
        raise NoPlan(int(none[1]))
    raise Failed(' '.join(words), answer.status)


def check(text: Union[bytes, str], seconds: Optional[float] = None, program: Optional[str] = None) -> None:
    """Returns where the file is accepted; Refused where it isn't, else as `ask`."""
    ask(['check'], text, seconds, program)


def derive(text: Union[bytes, str], seconds: Optional[float] = None,
           program: Optional[str] = None) -> Dict[str, List[str]]:
    """The adds that follow from the text of each action, as they stand in a file, by the action's name.

    Refused where the file is refused, else as `ask`.
    """
    adds: Dict[str, List[str]] = {}
    own: List[str] = []
    for line in ask(['derive'], text, seconds, program).splitlines():
        if line.startswith('action '):
            own = adds.setdefault(line[len('action '):], [])
        else:
            own.append(line)
    return adds
