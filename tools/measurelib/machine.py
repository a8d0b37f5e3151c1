"""When and where something is measured, and how fast the machine is by one fixed proof."""

import datetime
import os
import re
import shutil
import subprocess
import tempfile
from typing import Iterator, Tuple

from pkslib import commands

TOP = os.path.dirname(os.path.dirname(os.path.dirname(os.path.abspath(__file__))))
YARDSTICK = os.path.join(TOP, 'tools', 'tests', 'yardstick.txt')


def said(*words: str) -> str:
    """What a command prints, or '' where it isn't there or fails."""
    try:
        done = subprocess.run(words, cwd=TOP, capture_output=True, text=True, stdin=subprocess.DEVNULL)
    except OSError:
        return ''
    return done.stdout.strip() if done.returncode == 0 else ''


def commit() -> str:
    """The commit, and whether files differ from it."""
    found = said('git', 'rev-parse', '--short', 'HEAD')
    if not found:
        return 'none known'
    return f'`{found}`' + (', with changes' if said('git', 'status', '--porcelain', '-uno') else '')


def day() -> str:
    """The day, by the world's time."""
    return datetime.datetime.now(datetime.timezone.utc).strftime('%Y-%m-%d')


def kit() -> str:
    """The toolchain's kit, or '' where none is on the PATH."""
    return said('rt', 'version') if shutil.which('rt') else ''


def processors() -> str:
    """How many processors there are, and of what kind."""
    kind = 'of a kind that is not told'
    try:
        with open('/proc/cpuinfo', encoding='ascii', errors='replace') as file:
            kind = ' '.join(re.findall(r'^model name\s*: (.*)$', file.read(), re.M)[:1]) or kind
    except OSError:
        pass
    return f'{len(os.sched_getaffinity(0))}, {kind}'


def others() -> str:
    """How many processes wait for a processor or have one, on the average of the last minute."""
    return f'{os.getloadavg()[0]:.1f} processes'


def files() -> Iterator[Tuple[str, str]]:
    """The files of the crate whose proof is fixed: paths and texts."""
    with open(YARDSTICK, encoding='utf-8') as file:
        parts = re.split(r'^== (\S+)\n', file.read(), flags=re.M)
    return zip(parts[1::2], parts[2::2])


def yardstick() -> float:
    """The processor seconds of the fixed proof, by one process and from nothing; a Fault where it isn't proved."""
    with tempfile.TemporaryDirectory() as top:
        folder = os.path.join(top, 'crates', 'yardstick')
        for path, text in files():
            os.makedirs(os.path.dirname(os.path.join(folder, path)), exist_ok=True)
            with open(os.path.join(folder, path), 'w', encoding='utf-8') as file:
                file.write(text)
        with open(os.path.join(top, 'crates.txt'), 'w', encoding='ascii') as file:
            file.write('yardstick:\n')
        with tempfile.TemporaryFile() as printed:
            # (`rt verdict` takes nothing of what was kept)
            child = subprocess.Popen(['rt', 'verdict', '--jobs', '1'], cwd=folder, stdin=subprocess.DEVNULL,
                                     stdout=printed, stderr=subprocess.STDOUT)
            _, status, used = os.wait4(child.pid, 0)
            child.returncode = status
            if status:
                printed.seek(0)
                raise commands.Fault('the fixed proof fails:\n' + printed.read().decode('utf-8', 'replace'))
    return float(used.ru_utime + used.ru_stime)
