"""Runs a command that proves, and keeps what it prints and what each crate takes.

The toolchain's command prints no times. So while it runs the processes below it are looked at, again and again: each
has the name of its crate among its words, and tells what it has used of a processor.
"""

import os
import re
import subprocess
import sys
import threading
import time
from typing import Dict, Iterator, List, NamedTuple, Optional, Tuple

PAUSE = 0.5
"""Seconds between two looks."""

KINDS = ('proof', 'tests', 'edits')
TICKS = os.sysconf('SC_CLK_TCK')
HEAD = '== measured'
"""The line of a log behind which the times stand."""


class Process(NamedTuple):
    """A process: its parent, when it was begun, and the seconds of a processor that it has used."""

    parent: int
    begun: int
    seconds: float


def process(number: int) -> Process:
    """What the system tells of a process; OSError where it has ended."""
    with open(f'/proc/{number}/stat', encoding='utf-8', errors='replace') as file:
        fields = file.read().rpartition(')')[2].split()
    return Process(int(fields[1]), int(fields[19]), (int(fields[11]) + int(fields[12])) / TICKS)


def below(top: int) -> Iterator[Tuple[int, Process]]:
    """The processes that this one began, and those that they began."""
    found: Dict[int, Process] = {}
    for name in os.listdir('/proc'):
        if name.isdecimal():
            try:
                found[int(name)] = process(int(name))
            except OSError:
                continue
    inside = {top}
    # (a process may have a smaller number than its parent)
    grown = True
    while grown:
        new = {number for number, one in found.items() if one.parent in inside} - inside
        inside |= new
        grown = bool(new)
    return ((number, found[number]) for number in inside if number in found)


def crate_of(number: int) -> Tuple[str, str]:
    """The crate on which a process works, and the kind of its work; '' where it works on none."""
    try:
        with open(f'/proc/{number}/cmdline', 'rb') as file:
            words = file.read().decode('utf-8', 'replace').split('\0')
        folder = os.readlink(f'/proc/{number}/cwd')
    except OSError:
        return '', ''
    return crate_in(words, folder)


def crate_in(words: List[str], folder: str) -> Tuple[str, str]:
    """The crate that a process with these words works on in this folder, and the kind of its work."""
    if '--crate-name' not in words[:-1]:
        return '', ''
    kind = 'edits' if '/rt-edit' in folder else 'tests' if '--test' in words else 'proof'
    return words[words.index('--crate-name') + 1], kind


class Watch(threading.Thread):
    """Looks at the processes below one until it is told to stop."""

    def __init__(self, top: int) -> None:
        super().__init__(daemon=True)
        self.top, self.ended = top, threading.Event()
        self.used: Dict[Tuple[int, int], float] = {}
        self.works: Dict[Tuple[int, int], Tuple[str, str]] = {}

    def run(self) -> None:
        """Looks, and pauses."""
        while not self.ended.wait(PAUSE):
            self.look()

    def look(self) -> None:
        """Notes what each process has used so far."""
        for number, one in below(self.top):
            key = (number, one.begun)
            self.used[key] = one.seconds
            if not self.works.get(key, ('', ''))[0]:
                self.works[key] = crate_of(number)

    def crates(self) -> Dict[str, Dict[str, float]]:
        """What each crate took, by the kind of work."""
        found: Dict[str, Dict[str, float]] = {}
        for key, seconds in self.used.items():
            name, kind = self.works[key]
            if name:
                own = found.setdefault(name, {})
                own[kind] = own.get(kind, 0) + seconds
        return found


def keep(path: str, command: List[str]) -> int:
    """Runs the command, hands on what it prints, writes the log, and gives the command's status."""
    begun = time.monotonic()
    with open(path, 'w', encoding='utf-8') as log:
        child = subprocess.Popen(command, stdin=subprocess.DEVNULL, stdout=subprocess.PIPE, stderr=subprocess.STDOUT,
                                 text=True, errors='replace')
        watch = Watch(child.pid)
        watch.start()
        assert child.stdout is not None
        for line in child.stdout:
            sys.stdout.write(line)
            sys.stdout.flush()
            log.write(line)
        _, status, used = os.wait4(child.pid, 0)
        child.returncode = os.WEXITSTATUS(status) if os.WIFEXITED(status) else 128 + os.WTERMSIG(status)
        watch.ended.set()
        watch.join()
        log.write(f'{HEAD}\nstatus {child.returncode}\nclock {time.monotonic() - begun:.1f}\n'
                  f'processors {used.ru_utime + used.ru_stime:.1f}\n')
        for name, taken in sorted(watch.crates().items()):
            log.write(f'crate {name} ' + ' '.join(f'{kind} {taken.get(kind, 0):.1f}' for kind in KINDS) + '\n')
    return child.returncode


class Log(NamedTuple):
    """What was kept of a command: what it printed, its status, and its times in seconds, where the log has them."""

    printed: str
    status: Optional[int]
    clock: Optional[float]
    processors: Optional[float]
    crates: Dict[str, Dict[str, float]]

    def ended(self) -> str:
        """How it ended, and what of it was done anew."""
        told = [] if self.status is None else [f'status {self.status}']
        told += re.findall(r'^\d+ passed, \d+ failed$', self.printed, re.M)[-1:]
        told += re.findall(r'; (done in this run: \d+ of the \d+ proofs|every proof .* in this run)', self.printed)
        if self.crates:
            proofs = sum(taken.get('proof', 0) > 0 for taken in self.crates.values())
            told.append(f'proofs of {proofs} crates were seen')
        return '; '.join(told or ['not told'])


def read_log(path: str) -> Log:
    """A log, with its times where it was kept by this."""
    with open(path, encoding='utf-8', errors='replace') as file:
        text = file.read()
    printed, head, times = text.rpartition(f'{HEAD}\n')
    if not head:
        return Log(text, None, None, None, {})
    found: Dict[str, float] = {}
    crates: Dict[str, Dict[str, float]] = {}
    for line in times.splitlines():
        words = line.split()
        if words[0] == 'crate':
            crates[words[1]] = {kind: float(seconds) for kind, seconds in zip(words[2::2], words[3::2])}
        else:
            found[words[0]] = float(words[1])
    return Log(printed, int(found['status']), found['clock'], found['processors'], crates)


def minutes(seconds: Optional[float]) -> str:
    """Seconds as minutes, for a table."""
    return 'not told' if seconds is None else f'{seconds / 60:.1f}' if seconds < 600 else f'{seconds / 60:.0f}'
