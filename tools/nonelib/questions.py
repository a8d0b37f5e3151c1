"""Questions to the program: whether a changed file has a plan. Two at a time, within a time that is given."""

import subprocess
import time
from concurrent.futures import Future, ThreadPoolExecutor
from dataclasses import dataclass, replace
from typing import Dict, Optional, Set, Tuple

from asklib.files import File
from pkslib import Status
from pkslib.program import begin

SIDE_BY_SIDE = 2


@dataclass(frozen=True)
class Outcome:
    """What came of a question in so many `seconds`: a plan of some depth, none, a refusal, or no end."""

    depth: Optional[int] = None
    ended: bool = True
    refused: bool = False
    seconds: float = 0.0

    @property
    def is_none(self) -> bool:
        """Whether the program said that there is no plan."""
        return self.ended and not self.refused and self.depth is None


def without_costs(file: File) -> File:
    """The file with every cost 1. It has a plan of some depth exactly where the file has, and is searched faster."""
    return replace(file, actions=tuple(replace(action, cost=()) for action in file.actions))


class Asking:
    """Asks questions until the time is over; what was answered once isn't asked again."""

    def __init__(self, seconds: float) -> None:
        self.begun = time.monotonic()
        self.seconds = max(1.0, 0.92 * seconds - 1)
        self.answers: Dict[Tuple[str, int], Outcome] = {}
        self.pool = ThreadPoolExecutor(SIDE_BY_SIDE)
        self.running: 'Set[subprocess.Popen[bytes]]' = set()
        self.stopped = False

    def left(self) -> float:
        """The seconds that are left."""
        return self.seconds - (time.monotonic() - self.begun)

    def begin(self, file: File, depth: int, seconds: float) -> 'Future[Outcome]':
        """A question that is asked as soon as one of the two before it has ended."""
        return self.pool.submit(self.ask, file, depth, seconds)

    def ask(self, file: File, depth: int, seconds: float) -> Outcome:
        """The outcome of a question that may take so many seconds."""
        text = without_costs(file).text()
        known = self.answers.get((text, depth))
        if known is not None and (known.ended or known.seconds >= seconds):
            return known
        allowed = min(seconds, self.left())
        if self.stopped or allowed < 0.05:
            return Outcome(ended=False)
        outcome = self.answers[text, depth] = self.call(text, depth, allowed)
        return outcome

    def call(self, text: str, depth: int, seconds: float) -> Outcome:
        """The program's answer; of a question that is stopped or that fails, that it isn't ended."""
        begun = time.monotonic()
        child = begin(['plan', str(depth)], stdin=subprocess.PIPE, stdout=subprocess.PIPE)
        self.running.add(child)
        try:
            printed, _ = child.communicate(text.encode('ascii'), timeout=seconds)
        except subprocess.TimeoutExpired:
            # (it may have ended just now: then its answer is whole, and counts)
            child.kill()
            printed, _ = child.communicate()
        finally:
            self.running.discard(child)
        if child.returncode == Status.DONE:
            return Outcome(int(printed.split(b'\n')[0].split()[2]), seconds=time.monotonic() - begun)
        if child.returncode in (Status.NO_PLAN, Status.REFUSED):
            return Outcome(refused=child.returncode == Status.REFUSED, seconds=time.monotonic() - begun)
        return Outcome(ended=False, seconds=seconds)

    def stop(self) -> None:
        """Asks no more, and stops what is asked just now."""
        self.stopped = True
        for child in list(self.running):
            child.kill()
        self.pool.shutdown()
