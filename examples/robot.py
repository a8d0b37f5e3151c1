#!/usr/bin/env python3
"""A robot that is led through a plan by its own answers.

    examples/robot.py lawn | safe | house [WORLD]
    examples/robot.py mistypes | fails | faults

It leads a pkslib.Dialogue with the example's file, keeps a simulated world, does in it what it is
told to do, answers each question from it, and prints each line of the dialogue. Without WORLD each
of the example's worlds is tried.

`mistypes` answers once with a word that isn't fit, and goes on from the same question. `fails` is
switched off within the plan; switched on again it has the answers that it wrote down, begins anew
with them, and does only what it hadn't done. `faults` shows how a dialogue ends that can't go on.

The program is found as by all tools: the variable PKS, the built one of this checkout, the PATH.
The status is 0 where each dialogue ends as it should, 1 where one doesn't, and 2 where the words are wrong or the program
isn't there.
"""

import os
import subprocess
import sys
from typing import Dict, List, Sequence, Tuple, Type, Union

TOP = os.path.dirname(os.path.dirname(os.path.abspath(__file__)))
sys.dont_write_bytecode = True
sys.path.insert(0, os.path.join(TOP, 'tools'))

import pkslib  # noqa: E402
from pkslib import AskTest, Dialogue, Do, End, Fact, Question, World, commands, written  # noqa: E402


class Robot(World):
    """A robot and its world: the example that leads it, the worlds in which it is tried, and what it does in them."""

    file: str
    depth: int
    worlds: Dict[str, Tuple[List[Fact], Dict[Fact, str]]]

    def do(self, name: str, arguments: Sequence[str]) -> None:
        """Does an action."""
        raise NotImplementedError

    def is_well(self) -> bool:
        """Whether the world is at the end as it was wanted."""
        raise NotImplementedError


class Lawn(Robot):
    """The can holds poison or not; poured, poison kills the lawn."""

    file, depth = 'lawn', 3
    worlds = {'poison': ([('alive',), ('poison',)], {}), 'water': ([('alive',)], {})}

    def do(self, name: str, arguments: Sequence[str]) -> None:
        """Poison that is poured kills the lawn."""
        if name == 'pour' and ('poison',) in self.true:
            self.true.discard(('alive',))

    def is_well(self) -> bool:
        """Whatever the can held, the robot did what it could."""
        return True


class Safe(Robot):
    """The safe opens where its combination is dialled."""

    file, depth = 'safe', 2
    worlds = {c: ([], {('combo',): c}) for c in ('c1', 'c3', 'c5')}

    def do(self, name: str, arguments: Sequence[str]) -> None:
        """The safe opens where its combination is dialled."""
        if name == 'dial' and arguments[0] == self.values[('combo',)]:
            self.true.add(('open',))

    def is_well(self) -> bool:
        """Whether the safe is open."""
        return ('open',) in self.true


class House(Robot):
    """The cup lies in some room but the kitchen; the robot walks, takes and puts."""

    file, depth = 'house', 5
    worlds = {room: ([], {('here',): 'hall', ('loc', 'cup'): room, ('loc', 'book'): 'study',
                          ('loc', 'lamp'): 'hall', ('loc', 'letter'): 'kitchen',
                          ('loc', 'box'): 'study', ('loc', 'key'): 'hall'})
              for room in ('hall', 'study')}

    def do(self, name: str, arguments: Sequence[str]) -> None:
        """The robot walks, takes what lies where it is, and puts down what it holds."""
        here = self.values[('here',)]
        if name == 'go':
            self.values[('here',)] = arguments[0]
        elif name == 'take' and self.values[('loc', arguments[0])] == here:
            self.true.add(('held', arguments[0]))
        elif name == 'put' and ('held', arguments[0]) in self.true:
            self.true.discard(('held', arguments[0]))
            self.values[('loc', arguments[0])] = here

    def is_well(self) -> bool:
        """Whether the cup lies in the kitchen."""
        return self.values[('loc', 'cup')] == 'kitchen' and ('held', 'cup') not in self.true


ROBOTS: Dict[str, Type[Robot]] = {'lawn': Lawn, 'safe': Safe, 'house': House}


def dialogue_of(robot: Type[Robot]) -> Dialogue:
    """A dialogue about the robot's file."""
    with open(os.path.join(TOP, 'examples', robot.file + '.pks'), 'rb') as file:
        return pkslib.Dialogue(file.read(), robot.depth)


def answer(robot: Robot, question: Question) -> Union[bool, str]:
    """What the robot answers: the truth of a test, or the value of a term."""
    if isinstance(question, AskTest):
        return all(robot.holds(literal) for literal in question.literals)
    return robot.value(question.term)


def asked(question: Question) -> str:
    """A question as the program prints it."""
    if isinstance(question, AskTest):
        return 'test ' + ' '.join(map(written, question.literals))
    return 'value ' + written(question.term)


def done(robot: Robot, act: Do) -> None:
    """Does an action in the robot's world."""
    print(f'  do {written((act.name, *act.arguments))}')
    robot.do(act.name, act.arguments)


def lead(robot: Robot, dialogue: Dialogue) -> str:
    """Goes on with a dialogue to its end; how it ended."""
    for step in dialogue:
        if isinstance(step, Do):
            done(robot, step)
        elif isinstance(step, End):
            print(f'  {step.how}')
            return step.how
        else:
            said = answer(robot, step)
            print(f'  {asked(step)} -> {str(said).lower() if isinstance(said, bool) else said}')
            dialogue.answer(said)
    return ''


def is_as_it_should(robot: Robot, how: str) -> bool:
    """Whether the dialogue and the world ended well."""
    well = how == 'goal' and robot.is_well()
    print('  as it should be' if well else '  NOT as it should be')
    return well


def lead_in(kind: Type[Robot], name: str) -> bool:
    """Leads a robot in one of its worlds; whether it ended well."""
    print(f'{kind.file} in the world {name}')
    robot = kind(*kind.worlds[name])
    with dialogue_of(kind) as dialogue:
        return is_as_it_should(robot, lead(robot, dialogue))


def mistypes() -> bool:
    """A robot whose answer isn't fit: it begins anew, and answers the same question again."""
    print('house in the world study, with a slip of the pen')
    robot = House(*House.worlds['study'])
    with dialogue_of(House) as dialogue:
        first = dialogue.next()
        assert isinstance(first, Do)
        done(robot, first)
        question = dialogue.next()
        assert isinstance(question, pkslib.AskValue)
        print(f'  {asked(question)} -> stduy')
        dialogue.answer('stduy')
        try:
            dialogue.next()
        except pkslib.UnfitAnswer as fault:
            print(f'  {fault}')
        dialogue.resume()
        return is_as_it_should(robot, lead(robot, dialogue))


def fails() -> bool:
    """A robot that is switched off behind its second action, and goes on later."""
    print('house in the world study, switched off on the way')
    robot, did = House(*House.worlds['study']), 0
    with dialogue_of(House) as dialogue:
        while did < 2:
            step = dialogue.next()
            if isinstance(step, Do):
                done(robot, step)
                did += 1
            elif not isinstance(step, End):
                dialogue.answer(answer(robot, step))
        written_down = list(dialogue.answers)
    print(f'  switched off, with {did} actions done and the answers {written_down} written down')
    with dialogue_of(House) as dialogue:
        told = dialogue.resume(written_down)
        print(f'  switched on: {len(told)} actions are told again, and the last {len(told) - did} are to be done')
        for act in told[did:]:
            done(robot, act)
        return is_as_it_should(robot, lead(robot, dialogue))


# Dialogues that can't go on

def ends(what: str, kind: Type[Robot], said: bytes) -> bool:
    """Whether a dialogue in which all answers are these bytes ends with a refusal."""
    with open(os.path.join(TOP, 'examples', kind.file + '.pks'), 'rb') as file:
        sent = file.read() + b'.\n' + said
    got = pkslib.call(['agent', str(kind.depth)], sent)
    print(f'{what}: {got.text.splitlines()[-1]}, status {got.status}')
    return got.status == pkslib.Status.REFUSED


def ends_unread() -> bool:
    """Whether a dialogue whose lines nobody takes ends with the status of a fault of writing."""
    called = subprocess.Popen([pkslib.find(), 'agent', str(Safe.depth)], stdin=subprocess.PIPE,
                              stdout=subprocess.PIPE)
    assert called.stdin and called.stdout
    called.stdout.close()
    with open(os.path.join(TOP, 'examples', Safe.file + '.pks'), 'rb') as file:
        called.stdin.write(file.read() + b'.\n')
    called.stdin.close()
    got = called.wait()
    print(f'a closed pipe: status {got}')
    return got == pkslib.Status.WRITE_FAULT


def faults() -> bool:
    """All ways in which a dialogue can't go on."""
    return all([ends('an answer that isn\'t fit', Lawn, b'maybe\n'),
                ends('a missing answer', Lawn, b''),
                ends('an answer that is too long', Safe, b'c' * 65 + b'\n'),
                ends_unread()])


def main() -> int:
    """Does what the words ask for, and gives the status."""
    others = {'mistypes': mistypes, 'fails': fails, 'faults': faults}
    parser = commands.parser(__doc__ or '')
    parser.add_argument('what', choices=[*ROBOTS, *others], help='a robot, or what is to be seen')
    parser.add_argument('worlds', metavar='WORLD', nargs='*', help='worlds of the robot')
    given = parser.parse_args()
    if given.what in others:
        return 0 if others[given.what]() else 1
    kind = ROBOTS[given.what]
    strange = [name for name in given.worlds if name not in kind.worlds]
    if strange:
        raise commands.Fault(f'{given.what} has no world {strange[0]}, but {", ".join(kind.worlds)}')
    return 0 if all([lead_in(kind, name) for name in given.worlds or kind.worlds]) else 1


if __name__ == '__main__':
    commands.run(main)
