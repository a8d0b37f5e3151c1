"""Leads `agent` over a pipe: tells what to do, asks for what is known by then, and begins anew where it broke off."""

import os
import re
import select
import subprocess
import time
from dataclasses import dataclass
from types import TracebackType
from typing import Iterator, List, Optional, Sequence, Tuple, Type, Union

from . import program as calling
from .errors import Failed, PksError, Refused, TimedOut
from .forms import expressions
from .limits import Code
from .texts import ENDS, Do, read_act
from .trees import Literal, Term

CLOSING = 10.0
"""The seconds that the program may take to end once it has told its last line."""


@dataclass(frozen=True)
class AskValue:
    """The value of this term is asked for: the name of an object."""

    term: Term


@dataclass(frozen=True)
class AskTest:
    """Whether all of these literals are true is asked for: True or False."""

    literals: Tuple[Literal, ...]


@dataclass(frozen=True)
class End:
    """The dialogue is over: `goal`, `impossible`, or `no case` where a value has no case."""

    how: str


Question = Union[AskValue, AskTest]
"""What is asked of the caller."""

Step = Union[Do, AskValue, AskTest, End]
"""What a dialogue tells."""


class UnfitAnswer(Refused):
    """An answer isn't fit for its question; the dialogue is over, and `resume` leads back to the question."""

    def __init__(self, fault: Refused, question: Optional[Question], answer: str) -> None:
        super().__init__(fault.refusal)
        self.question, self.answer = question, answer


class Dialogue:
    """A plan that is led through by the answers of a caller.

        with Dialogue(text, depth) as dialogue:
            for step in dialogue:
                if isinstance(step, Do):
                    robot.do(step.name, step.arguments)
                elif isinstance(step, End):
                    print(step.how)
                else:
                    dialogue.answer(robot.answer(step))

    Each step may raise Refused (the file), UnfitAnswer (the answer before it), NoPlan, TimedOut where it isn't told
    within `seconds` (the first takes as long as the planning), Failed and NoProgram. The dialogue is over then.
    """

    answers: List[str]
    """The answers that were given, but for one that wasn't fit."""
    _child: 'Optional[subprocess.Popen[bytes]]' = None
    _asked: Optional[Question]
    _answered: Optional[Question]
    _waiting: Optional[Step]
    _ended: Optional[End]

    def __init__(self, text: Union[bytes, str], depth: int, seconds: Optional[float] = None,
                 program: Optional[str] = None) -> None:
        sent = text.encode('utf-8', 'surrogateescape') if isinstance(text, str) else text
        if re.search(rb'^\.$', sent, re.M):
            raise ValueError('the file has a line that is a full stop alone: give what stands before it')
        self._file = sent + (b'' if sent.endswith(b'\n') else b'\n') + b'.\n'
        self._words = ['agent', str(depth)]
        self._seconds, self._program = seconds, program
        self._begin()

    # What a caller uses

    def __iter__(self) -> Iterator[Step]:
        """All steps to the end, which is the last of them; each question must be answered before the next."""
        while self._ended is None:
            yield self.next()

    def next(self) -> Step:
        """The next step; ValueError where the last was a question that isn't answered, or the dialogue is over."""
        if self._waiting is not None:
            step, self._waiting = self._waiting, None
        else:
            step = self._step()
        if isinstance(step, End):
            self._ended = step
        return step

    def answer(self, said: Union[str, bool]) -> None:
        """Answers the last question: an object's name to AskValue, True or False to AskTest.

        ValueError where nothing was asked, or the answer isn't one line; TypeError where it is nothing of these. Whether
        it is fit the next step tells.
        """
        text = ('true' if said else 'false') if isinstance(said, bool) else said
        if self._asked is None or self._waiting is not None:
            raise ValueError('an answer, and no question was asked')
        if not isinstance(text, str):
            raise TypeError(f'an answer is a text, True or False, and not {said!r}')
        if '\n' in text:
            raise ValueError(f'an answer is one line: {text!r}')
        self._answered, self._asked = self._asked, None
        self.answers.append(text)
        self._send(text.encode('utf-8', 'surrogateescape') + b'\n')

    def resume(self, answers: Optional[Sequence[str]] = None) -> List[Do]:
        """Begins anew, gives these answers again, and comes to the next question, or to the end.

        Without `answers` they are those of this dialogue. The same file has the same plan each time, so the same
        answers lead to the same place. Gives all actions that were told on the way, from the first on: those that
        were done before must not be done again. Raises what a step does, and ValueError where the dialogue ends before
        all answers are asked for.
        """
        given = list(self.answers if answers is None else answers)
        self._begin()
        try:
            return self._play(given)
        except UnfitAnswer:
            raise
        except PksError:
            self.answers = given
            raise

    def close(self) -> None:
        """Ends the program, where it still runs, and the dialogue: what was told and not asked for isn't given any more."""
        child, self._child = self._child, None
        self._unread, self._waiting = b'', None
        if child is not None:
            child.kill()
            child.wait()
            for pipe in (child.stdin, child.stdout):
                if pipe is not None:
                    pipe.close()

    def __enter__(self) -> 'Dialogue':
        return self

    def __exit__(self, kind: Optional[Type[BaseException]], fault: Optional[BaseException],
                 trace: Optional[TracebackType]) -> None:
        self.close()

    # What it stands on

    def _begin(self) -> None:
        """The program, begun anew with the file."""
        self.close()
        self.answers = []
        self._unread = b''
        self._asked = self._answered = None
        self._waiting = self._ended = None
        self._child = calling.begin(self._words, self._program, stdin=subprocess.PIPE, stdout=subprocess.PIPE,
                                    bufsize=0)
        self._send(self._file)

    def _play(self, answers: Sequence[str]) -> List[Do]:
        """Gives the answers one after another; the actions that are told up to the step behind the last."""
        left = list(reversed(answers))
        told: List[Do] = []
        while True:
            step = self._step()
            if isinstance(step, Do):
                told.append(step)
            elif isinstance(step, End) or not left:
                self._waiting = step
                if left:
                    raise ValueError(f'the dialogue ends before the answer {left[-1]!r} is asked for')
                return told
            else:
                self.answer(left.pop())

    def _step(self) -> Step:
        if self._asked is not None:
            raise ValueError('the question before isn\'t answered yet')
        line = self._line()
        word, _, rest = line.partition(' ')
        if word == 'do':
            return read_act(rest)
        if word == 'value':
            self._asked = AskValue(expressions(rest)[0])
            return self._asked
        if word == 'test':
            self._asked = AskTest(tuple(expressions(rest)))
            return self._asked
        self._end(line)
        return End(line)

    def _end(self, line: str) -> None:
        """Waits for the end of the program; raises what a last line says that is no end of a dialogue."""
        child = self._child
        try:
            status = child.wait(CLOSING) if child is not None else None
        except subprocess.TimeoutExpired:
            raise TimedOut(' '.join(self._words), CLOSING) from None
        finally:
            self.close()
        if status is None:
            raise ValueError('the dialogue is over')
        try:
            calling.need_done(self._words, calling.Answer(status, line))
        except Refused as fault:
            if fault.code == Code.ANSWER_UNFIT and self.answers:
                raise UnfitAnswer(fault, self._answered, self.answers.pop()) from None
            raise
        if line not in ENDS:
            raise Failed(' '.join(self._words), status, f'it told {line!r}')

    def _line(self) -> str:
        """The next line without its line feed; what is left of it where the program ends."""
        end = self._until()
        while b'\n' not in self._unread:
            pipe = self._child.stdout if self._child is not None else None
            if pipe is None:
                break
            self._wait([pipe.fileno()], [], end)
            more = os.read(pipe.fileno(), 65536)
            if not more:
                break
            self._unread += more
        line, _, self._unread = self._unread.partition(b'\n')
        return line.decode('ascii', 'replace')

    def _send(self, data: bytes) -> None:
        """Writes to the program; what it doesn't take since it has ended is left out."""
        pipe = self._child.stdin if self._child is not None else None
        end = self._until()
        while data and pipe is not None:
            self._wait([], [pipe.fileno()], end)
            try:
                data = data[os.write(pipe.fileno(), data[:select.PIPE_BUF]):]
            except BrokenPipeError:
                return

    def _until(self) -> Optional[float]:
        return None if self._seconds is None else time.monotonic() + self._seconds

    def _wait(self, reading: List[int], writing: List[int], end: Optional[float]) -> None:
        """Waits until one of these can be read or written; TimedOut, the program being ended, where the time is up."""
        left = None if end is None else max(0.0, end - time.monotonic())
        if not any(select.select(reading, writing, [], left)):
            self.close()
            raise TimedOut(' '.join(self._words), self._seconds or 0)
