"""The library that counts a program's allocations and refuses them, and how it is loaded before the program."""

import os
import shutil
import subprocess
from typing import Dict, List

SOURCE = os.path.join(os.path.dirname(os.path.abspath(__file__)), 'refuse.c')


def compiler() -> List[str]:
    """The words that call the C compiler: that of $CC, or cc, or the kit's, which stands beside its command."""
    command = shutil.which('rt')
    if os.environ.get('CC') or shutil.which('cc') or not command:
        return [os.environ.get('CC') or 'cc']
    kit = os.path.dirname(os.path.dirname(os.path.realpath(command)))
    return [os.path.join(kit, 'toolchain', 'bin', 'clang'), '-fuse-ld=lld']


def library(folder: str) -> str:
    """The library that refuses."""
    made = os.path.join(folder, 'refuse.so')
    subprocess.run([*compiler(), '-O2', '-shared', '-fPIC', '-nostdlib', '-o', made, SOURCE], check=True)
    return made


def numbers(line: str) -> Dict[str, int]:
    """The numbers of a line of the report, by their names."""
    words = line.split()[1:]
    return {key: int(value) for key, value in zip(words[::2], words[1::2])}
