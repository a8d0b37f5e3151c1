"""What the tests of the tools have in common: tools as modules, stand-ins for the program, and how faults are told."""

import importlib.machinery
import importlib.util
import os
import shlex
import subprocess
import sys
from types import ModuleType
from typing import Callable, Dict, Iterable, Optional, Sequence, Tuple, Type

TOP = os.path.dirname(os.path.dirname(os.path.dirname(os.path.abspath(__file__))))
TOOLS = os.path.join(TOP, 'tools')
sys.dont_write_bytecode = True
sys.path.insert(0, TOOLS)


def module(name: str) -> ModuleType:
    """A tool as a module."""
    path = os.path.join(TOOLS, name)
    loader = importlib.machinery.SourceFileLoader(name.replace('-', '_'), path)
    found = importlib.util.module_from_spec(importlib.util.spec_from_loader(loader.name, loader))
    loader.exec_module(found)
    return found


def example(name: str) -> str:
    """The text of a file of the examples."""
    with open(os.path.join(TOP, 'examples', name), encoding='latin-1') as file:
        return file.read()


def run(name: str, words: Sequence[str], text: str = '', program: Optional[str] = None) -> Tuple[str, str, int]:
    """What a tool writes on standard output and on standard error, and its status."""
    environment = {key: value for key, value in os.environ.items() if key != 'PKS'}
    if program is not None:
        environment['PKS'] = program
    done = subprocess.run([os.path.join(TOOLS, name), *words], input=text, capture_output=True, text=True,
                          env=environment, timeout=3600)
    return done.stdout, done.stderr, done.returncode


def script(folder: str, name: str, lines: Iterable[str]) -> str:
    """A shell script in a folder; gives its path."""
    path = os.path.join(folder, name)
    with open(path, 'w', encoding='ascii') as file:
        file.write('#!/bin/sh\n' + '\n'.join(lines) + '\n')
    os.chmod(path, 0o755)
    return path


def stand_in(folder: str, answers: Dict[str, Tuple[str, int, float]], name: str = 'pks') -> str:
    """A program that has for some words a text, a status, and seconds that it waits; other words end with 2."""
    lines = ['cat > /dev/null', 'case "$*" in']
    for words, (text, status, seconds) in answers.items():
        wait = f'exec sleep {seconds}' if seconds else ':'
        lines.append(f'{shlex.quote(words)}) printf %s {shlex.quote(text)}; {wait}; exit {status} ;;')
    return script(folder, name, lines + ['*) echo "usage: pks check"; exit 2 ;;', 'esac'])


class Faults:
    """Counts what was looked at, and tells what is wrong."""

    def __init__(self) -> None:
        self.looked = self.wrong = 0

    def same(self, what: str, wanted: object, got: object) -> None:
        """Tells where something isn't as it should be."""
        self.looked += 1
        if wanted != got:
            self.wrong += 1
            print(f'{what}:\n    wanted {wanted!r}\n    got    {got!r}')

    def raises(self, what: str, kind: Type[BaseException], text: str, call: Callable[[], object]) -> None:
        """Tells where a call doesn't raise this exception with this text in it."""
        try:
            got = f'{call()!r}'
        except kind as fault:
            got = text if text in str(fault) else str(fault)
        self.same(what, text, got)

    def status(self, what: str) -> int:
        """Tells how much was looked at, and gives the status of the test."""
        print(f'{self.looked} {what}, {self.wrong} faults')
        return 1 if self.wrong or not self.looked else 0
