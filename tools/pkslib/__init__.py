"""The planner `pks` for Python: its files, its plans and its program.

    import pkslib
    tree = pkslib.plan(open('kettle.pks', 'rb').read(), 4, seconds=60)
    if tree is not None:
        print(tree.depth, tree.cost, len(tree.leaves))

A text is what the file has, as bytes or `str`, and not its path. The folder `tools`, or `PREFIX/lib/pks/tools` where
it is installed, has to be on `sys.path`.

The program is found by the environment variable PKS, beside the tools, or on the PATH; nothing here builds or
proves it. Every public function has types, and raises the exceptions that its sentence names; all that come of
the program are a PksError.

Calls of the program (each takes `seconds`, the time that it may take, and `program`, the path of another program):

    plan(text, depth)           the best plan as a tree, or None where none is derived
    check(text)                 returns where the file is accepted, and raises Refused where it isn't
    derive(text)                the adds that follow from the text of each action, by the action's name
    ask(words, text)            the text that the program prints where the job is done
    call(words, text)           the status and the text, whatever they are
    find()                      the path of the program

Plans:

    Act(name, arguments, next)  an action; Branch(literals, true, false); Cases(term, sides); Goal(); Impossible()
    .cost .depth .leaves        of each: what the dearest way costs, the steps of the longest, the ends of all
    .children .price            of an inner node: the trees below, and what the step alone costs
    ways(tree)                  all ways to a leaf, each with .steps, .leaf and .cost
    read_plan(text, prices)     the tree of a printed plan;  printed(tree) is its text again
    need_no_other(text)         tells of a text that is no plan but a file, a run, a dialogue
    costs(text)                 the cost of each action of a file

Dialogues, which lead `agent` over a pipe (the class tells how; a robot stands in examples/robot.py):

    Dialogue(text, depth)       its steps are Do(name, arguments), AskValue(term), AskTest(literals), End(how)
    .next() .answer(said)       the next step; an answer to the last question: a name, or True or False
    .answers .resume(answers)   what was answered; begins anew and gives these answers again
    .close()                    ends the program; so does the end of a `with`

Other printed texts (trees as above; Malformed where a text isn't one):

    read_run, read_recalled, read_explained, read_shared    Run, Recalled, Explained, Shared; read_printed takes all
    World(true, values)         a world: .value(term), .holds(literal), .lines()
    fitting_world(file, wanted) a world that fits the start of a File; choices(file, wanted) tells what is open

Files:

    Text(data)                  forms with places, also of a broken text: .forms .lists .open .extra
    Form                        a word or a list: .word .parts .parent .start .end .line .column
    read(data)                  the forms, or Malformed;  expressions(data) has words and tuples instead
    File(data)                  what a file states: .types .objects .predicates .functions .actions .init .goal
    written(expression)         an expression as it is printed
    lost_parenthesis(text), gained_parenthesis(text)    by the indentation of the lines

Words of the format: the module `limits` has each limit, `Status` and `Code`.

Exceptions: PksError is the class of NoProgram, TimedOut, Refused (.line .column .code), UnfitAnswer (a Refused with
.question and .answer), NoPlan and Failed (.status);
Malformed is a ValueError with .line and .column, and NoWorld one that tells why no world fits.

The module `commands` has what the commands in `tools` have in common.
"""

from . import limits
from .dialogue import AskTest, AskValue, Dialogue, End, Question, Step, UnfitAnswer
from .errors import Failed, NoPlan, NoProgram, PksError, Refused, TimedOut
from .files import Action, File, Function, costs
from .fitting import Choices, NoWorld, choices, fitting_world
from .forms import (ALL_WORDS, NAME, PKS_WORDS, VARIABLE, Expression, Form, Malformed, Text, expressions, read,
                    written)
from .indentation import gained_parenthesis, lost_parenthesis
from .limits import Code, Refusal, Status, read_refusal
from .planning import plan
from .program import Answer, ask, call, check, derive, find
from .texts import (Branched, Cased, Do, Entry, Event, Explained, Instances, Moment, Printed, ProofLine, Recalled, Run,
                    Shared, Value, Whether, read_act, read_explained, read_printed, read_proof_line, read_recalled,
                    read_run, read_shared, tree_of)
from .trees import (Act, Branch, Cases, Goal, Impossible, Leaf, Literal, Side, Term, Tree, Way, need_no_other,
                    printed, read_body, read_plan, sides, ways)
from .worlds import Fact, World

__all__ = [
    'ALL_WORDS', 'Act', 'Action', 'Answer', 'AskTest', 'AskValue', 'Branch', 'Branched', 'Cased', 'Cases',
    'Choices', 'Code', 'Dialogue', 'Do', 'End', 'Entry', 'Event', 'Explained', 'Expression', 'Fact', 'Failed',
    'File', 'Form', 'Function', 'Goal', 'Impossible', 'Instances', 'Leaf', 'Literal', 'Malformed', 'Moment', 'NAME',
    'NoPlan', 'NoProgram', 'NoWorld', 'PKS_WORDS', 'PksError', 'Printed', 'ProofLine', 'Question', 'Recalled',
    'Refusal', 'Refused', 'Run', 'Shared', 'Side', 'Status', 'Step', 'Term', 'Text', 'TimedOut', 'Tree',
    'UnfitAnswer', 'VARIABLE', 'Value', 'Way', 'Whether', 'World', 'ask', 'call', 'check', 'choices', 'costs',
    'derive', 'expressions', 'find', 'fitting_world', 'gained_parenthesis', 'limits', 'lost_parenthesis',
    'need_no_other', 'plan', 'printed', 'read', 'read_act', 'read_body', 'read_explained', 'read_plan', 'read_printed',
    'read_proof_line', 'read_recalled', 'read_refusal', 'read_run', 'read_shared', 'sides', 'tree_of', 'ways', 'written',
]
