"""Explains 260: the case that an add comes nearest to, and what undoes it."""

from dataclasses import dataclass
from typing import Iterator, List, Optional, Sequence

from pkslib import Form

from .names import Names


@dataclass
class Change:
    """A form and what stands in its place, or a part more for a section of the action."""

    form: Form
    text: str
    section: Optional[str] = None


def queries(names: Names, add: Form, action: Form) -> List[Form]:
    """The given queries: those of the add's `if` and of `pre`, without negated ones."""
    own = add.parts[1].parts if add.head() == 'if' and len(add.parts) > 1 else []
    return [q for q in own if q.head() != 'not-derived'] + asked(names, action)


def asked(names: Names, action: Form) -> List[Form]:
    """The queries of `pre`, without negated ones."""
    return [q for q in names.section(action, 'pre') if q.head() != 'not-derived']


def equal(one: Form, other: Form) -> bool:
    """Whether two literals are the same, the sides of an equation in either order."""
    if one.head() == 'not' and other.head() == 'not':
        return equal(one.rest()[0], other.rest()[0])
    if one.head() == other.head() == '=':
        return {p.text() for p in one.rest()} == {p.text() for p in other.rest()}
    return one.text() == other.text()


def negates(one: Form, other: Form) -> bool:
    """Whether one of two literals is the other one negated."""
    for a, b in ((one, other), (other, one)):
        if a.head() == 'not' and b.head() != 'not':
            return equal(a.rest()[0], b)
    return False


def is_given(literal: Form, given: Sequence[Form]) -> bool:
    """Whether a given query asks that a literal is known."""
    return any(q.head() == 'k' and equal(q.rest()[0], literal) for q in given)


def is_either_way(literal: Form, given: Sequence[Form]) -> bool:
    """Whether a given query asks that it is known whether a literal is so."""
    for q in given:
        if q.head() in ('k', 'kw') and len(q.rest()) == 1:
            if equal(q.rest()[0], literal) or negates(q.rest()[0], literal):
                return True
    return False


class Effect:
    """An effect: what it does, under which conditions."""

    def __init__(self, form: Form) -> None:
        self.form = form
        self.conditions = form.parts[1].parts if form.head() == 'when' else []
        target = form.parts[2] if form.head() == 'when' else form
        self.verb, self.target = target.head(), target.rest()

    def subject(self) -> Optional[str]:
        """The predicate or the function that it changes."""
        return self.target[0].head()

    def sign(self) -> Optional[bool]:
        """Whether it makes atoms true; None where it assigns a value."""
        return {'set': True, 'unset': False, 'clear': False}.get(self.verb)


def effects(names: Names, action: Form) -> List[Effect]:
    """The effects of an action, without those that can't be read."""
    found = []
    for form in names.section(action, 'effects'):
        try:
            found.append(Effect(form))
        except IndexError:
            pass
    return found


def may_undo(names: Names, early: Effect, late: Effect, given: Sequence[Form]) -> bool:
    """Whether a later effect may undo an earlier one, as the rule has it."""
    if early.subject() != late.subject():
        return False
    if early.verb == 'assign' or late.verb == 'assign':
        if early.verb != late.verb:
            return False
    elif early.sign() == late.sign():
        return False
    for a, b in zip(early.target[0].rest(), late.target[0].rest()):
        if differ(names, a, b, given):
            return False
    return True


def differ(names: Names, a: Form, b: Form, given: Sequence[Form]) -> bool:
    """Whether two terms are different objects, by their names or by what is asked."""
    if a.word in names.objects and b.word in names.objects:
        return a.word != b.word
    return any(q.head() == 'k' and q.rest()[0].head() == 'not'
               and q.rest()[0].rest()[0].head() == '='
               and {p.text() for p in q.rest()[0].rest()[0].rest()} == {a.text(), b.text()}
               for q in given)


def difference(early: Effect, late: Effect) -> Optional[str]:
    """The query that would keep a later effect from undoing an earlier one."""
    for a, b in zip(early.target[0].rest(), late.target[0].rest()):
        if a.text() != b.text():
            return f'(k (not (= {a.text()} {b.text()})))'
    return None


def explain(names: Names, add: Form) -> List[str]:
    """What is said of an add that nothing justifies."""
    action = names.action_of(add)
    item = add.parts[-1] if add.head() == 'if' else add
    given = queries(names, add, action)
    found = effects(names, action)
    said = [f'The action `{action.parts[1].text()}` tells `{item.text()}`, and nothing in the '
            'action makes it so whenever it is done.']
    kinds = {'kf': fact, 'kw': whether, 'kv': value, 'lcw': region}
    return said + kinds[item.head()](names, action, item, given, found)


def wanted(literal: Form) -> str:
    """The effect that would make a literal so."""
    if literal.head() == 'not':
        return f'(unset {literal.rest()[0].text()})'
    if literal.head() == '=':
        left, right = literal.rest()
        place, other = (left, right) if left.is_list() else (right, left)
        return f'(assign {place.text()} {other.text()})'
    return f'(set {literal.text()})'


def makes(effect: Effect, literal: Form) -> bool:
    """Whether an effect's target is what a literal says."""
    if literal.head() == '=':
        return effect.verb == 'assign' and (
            {t.text() for t in effect.target} == {p.text() for p in literal.rest()})
    if literal.head() == 'not':
        return effect.verb == 'unset' and effect.target[0].text() == literal.rest()[0].text()
    return effect.verb == 'set' and effect.target[0].text() == literal.text()


def cures(names: Names, add: Form) -> Iterator[Change]:
    """Changes of the action by which the add may have a case, the likeliest first."""
    action = names.action_of(add)
    item = add.parts[-1] if add.head() == 'if' else add
    given, found = queries(names, add, action), effects(names, action)
    rules = {'kf': fact_cures, 'kw': whether_cures, 'kv': value_cures}
    return rules[item.head()](names, action, add, given, found) if item.head() in rules else iter(())


def asking(add: Form, asked: Sequence[str]) -> Change:
    """An add under further queries."""
    item = add.parts[-1] if add.head() == 'if' else add
    own = [q.text() for q in add.parts[1].parts] if add.head() == 'if' else []
    return Change(add, f'(if ({" ".join(own + [q for q in asked if q not in own])}) {item.text()})')


def fact_cures(names: Names, action: Form, add: Form, given: Sequence[Form],
               found: Sequence[Effect]) -> Iterator[Change]:
    """Changes for a `kf`."""
    item = add.parts[-1] if add.head() == 'if' else add
    literal = item.rest()[0]
    if stays(literal, given, found) and add.parent is not None and len(add.parent.rest()) > 1:
        yield Change(add, '')
    senses = list(names.section(action, 'senses'))
    yield from (Change(item, text) for sense in senses if not is_told(names, action, sense)
                for text in as_sensed(sense, literal))
    for i, effect in [(i, e) for i, e in enumerate(found) if makes(e, literal)]:
        asked = [f'(k {c.text()})' for c in effect.conditions if not is_given(c, given)]
        if asked:
            yield asking(add, asked)
        for late in found[i + 1:]:
            query = difference(effect, late) if may_undo(names, effect, late, given) else None
            if query:
                yield Change(add, query, 'pre')
    yield from (Change(item, text) for sense in senses if is_told(names, action, sense)
                for text in as_sensed(sense, literal))


def as_sensed(sense: Form, literal: Form) -> Iterator[str]:
    """An item that tells whether a literal is so, as a sense finds it out."""
    plain = literal.rest()[0] if literal.head() == 'not' else literal
    if sense.head() == 'sense' and len(sense.rest()) == 1 and sense.rest()[0].text() in (literal.text(), plain.text()):
        yield f'(kw {sense.rest()[0].text()})'
    if sense.head() == 'sense-all' and sense.rest()[0].head() == plain.head():
        yield f'(kw {plain.text()})'


def whether_cures(names: Names, action: Form, add: Form, given: Sequence[Form],
                  found: Sequence[Effect]) -> Iterator[Change]:
    """Changes for a `kw`."""
    item = add.parts[-1] if add.head() == 'if' else add
    literals = item.rest()
    texts = [l.text() for l in literals]
    for sense in names.section(action, 'senses'):
        if sense.head() == 'sense' and set(texts) & {l.text() for l in sense.rest()}:
            yield Change(item, '(kw ' + ' '.join(l.text() for l in sense.rest()) + ')')
        if sense.head() == 'sense-value' and len(literals) == 1 and literals[0].head() == '=':
            yield Change(item, f'(kv {sense.rest()[0].text()})')
    for sense in names.section(action, 'senses'):
        if sense.head() == 'sense' and not is_told(names, action, sense):
            yield Change(item, f'(kw {" ".join(l.text() for l in sense.rest())})')
    if len(literals) == 1:
        atom = literals[0].rest()[0] if literals[0].head() == 'not' else literals[0]
        for effect in found:
            if effect.verb not in ('set', 'unset') or effect.target[0].text() != atom.text():
                continue
            if effect.conditions:
                asked = [f'(kw {l.text()})' for l in effect.conditions + [atom] if not is_either_way(l, given)]
                yield Change(add, ' '.join(dict.fromkeys(asked)), 'pre')
            else:
                yield Change(item, f'(kf {atom.text() if effect.verb == "set" else f"(not {atom.text()})"})')
    if not any(e.target[0].head() in {l.head() for l in literals} for e in found):
        yield Change(add, f'(sense {" ".join(texts)})', 'senses')


def is_told(names: Names, action: Form, sense: Form) -> bool:
    """Whether an action tells what a sense finds out."""
    literals = [l.text() for l in sense.rest()]
    return any([l.text() for l in add.rest()] == literals for add in names.section(action, 'knows') if add.head() == 'kw')


def value_cures(names: Names, action: Form, add: Form, given: Sequence[Form],
                found: Sequence[Effect]) -> Iterator[Change]:
    """Changes for a `kv`."""
    item = add.parts[-1] if add.head() == 'if' else add
    term = item.rest()[0]
    for effect in found:
        if effect.verb == 'assign' and effect.target[0].text() == term.text() and not effect.conditions:
            yield asking(add, [f'(kv {effect.target[1].text()})'])
    if not any(e.verb == 'assign' and e.subject() == term.head() for e in found):
        yield Change(add, f'(sense-value {term.text()})', 'senses')


def is_toggle(found: Sequence[Effect], literal: Form) -> bool:
    """Whether two effects turn the same atom over, each where it was the other way."""
    atom = literal.rest()[0] if literal.head() == 'not' else literal
    own = [e for e in found if e.verb in ('set', 'unset') and e.target[0].text() == atom.text() and e.conditions]
    return {e.verb for e in own} == {'set', 'unset'}


def contrary(literal: Form) -> str:
    """The literal with the other sign."""
    return literal.rest()[0].text() if literal.head() == 'not' else f'(not {literal.text()})'


def stays(literal: Form, given: Sequence[Form], found: Sequence[Effect]) -> Optional[str]:
    """Why a fact that an add tells stays as it was: no effect on it has a condition that may hold there; or None."""
    plain = literal.rest()[0] if literal.head() == 'not' else literal
    own = [e for e in found if e.subject() == plain.head()]
    off = [next((c for c in e.conditions if is_given_not(c, given)), None) for e in own]
    if not own or None in off or any(makes(e, literal) for e in own):
        return None
    return f'where `{contrary(off[0])}` is known its effect on `{plain.head()}` doesn\'t come about'


def is_given_not(literal: Form, given: Sequence[Form]) -> bool:
    """Whether a given query asks that a literal is known to be false."""
    return any(q.head() == 'k' and negates(q.rest()[0], literal) for q in given)


def law(names: Names, action: Form, item: Form) -> List[str]:
    """What is said of an add that tells one fact where another one, which is sensed, is known to be so."""
    add, told = item.parent, item.rest()[0]
    queries = add.parts[1].parts if add is not None and add.head() == 'if' else []
    sensed = {part.text() for s in names.section(action, 'senses') if s.head() == 'sense' for part in s.rest()}
    for query in queries:
        literal = query.rest()[0] if query.head() == 'k' and query.rest() else None
        if literal is not None and {literal.text(), contrary(literal)} & sensed and told.head() != '=':
            each = ' for each choice of objects' if '?' in literal.text() + told.text() else ''
            return ['An action tells of its own effects and senses alone, and not that one fact goes with another. Sense '
                    f'`{told.text()}` itself in place of `{literal.text()}`; or, where the one is so at the start just '
                    f'where the other is, write{each} in `init` that exactly one of these is true: `(kx '
                    f'{contrary(literal)} {told.text()})`.']
    return []


def toggled(names: Names, action: Form, literal: Form) -> List[str]:
    """What is said of an action that turns a fact over."""
    atom = literal.rest()[0] if literal.head() == 'not' else literal
    name = action.parts[1].text()
    return ['The action turns a fact over: of its two effects the later one may undo the earlier, so neither can be told. '
            'Make two actions of it, each of which does one thing:',
            f'    (action {name}-on .. (pre (k (not {atom.text()})) ..) (effects (set {atom.text()})) (knows (kf {atom.text()})))',
            f'    (action {name}-off .. (pre (k {atom.text()}) ..) (effects (unset {atom.text()})) '
            f'(knows (kf (not {atom.text()}))))']


def fact(names: Names, action: Form, item: Form, given: Sequence[Form], found: Sequence[Effect]) -> List[str]:
    """What is said of a `kf`."""
    literal = item.rest()[0]
    if is_toggle(found, literal):
        return toggled(names, action, literal)
    fitting = [(i, e) for i, e in enumerate(found) if makes(e, literal)]
    asks = [' '.join(f'(k {c.text()})' for c in e.conditions if not is_given(c, given))
            for _, e in fitting]
    if len(asks) > 1 and all(asks):
        return ['Each effect that makes it so has a condition that needn\'t hold; tell it once for '
                'each: `' + ' '.join(f'(if ({a}) {item.text()})' for a in asks) + '`.']
    for (i, e), ask in zip(fitting, asks):
        if ask:
            return [f'Nearest: the effect `{e.form.text()}`. It has a condition that needn\'t hold; '
                    f'the add must ask for it: `(if ({ask}) {item.text()})`, or put `{ask}` into '
                    '`pre`.']
        for late in found[i + 1:]:
            if may_undo(names, e, late, given):
                return undone(e, late)
    senses = names.section(action, 'senses')
    if any(s.head() == 'sense' and literal.text() in [l.text() for l in s.rest()] for s in senses):
        return [f'What is sensed may come out either way, so it is told by `kw`, not by `kf`: `(kw {literal.text()})`.']
    why = stays(literal, given, found)
    if why:
        return [f'What stays as it was needn\'t be told: {why}, so what was known before is still known. Leave the add out.']
    rule = law(names, action, item)
    if rule:
        return rule
    case = 'J2' if literal.head() == '=' else 'J1'
    said = [f'A `kf` wants an effect that makes it so ({case}): `{wanted(literal)}`. The action\'s '
            f'effects: {", ".join("`" + e.form.text() + "`" for e in found) or "none"}.']
    if any(s.head() == 'sense' for s in senses):
        said.append('What is sensed may come out either way, so it is told by `kw`, not by `kf`.')
    plain = literal.rest()[0] if literal.head() == 'not' else literal
    if plain.head() != '=' and not any(e.subject() == plain.head() for e in found):
        said.append(f'The action doesn\'t change `{plain.head()}`, and what isn\'t changed stays known as it was: that '
                    'needn\'t be told.')
    return said


BEHIND_BOTH = ('Which of the two it is hangs on a condition: a sense finds it out, in this action or a later one, since '
               'senses see the world after the effects.')
"""What is said where a later effect with a condition may undo one about the same thing."""

ONE_TOO_MANY = 'Write the later effect first, or leave one out.'
"""What is said where a later effect without a condition undoes one about the same thing."""


def undone(early: Effect, late: Effect) -> List[str]:
    """What is said of an effect that a later one may undo."""
    query = difference(early, late)
    where = ', where their arguments are the same objects' if query else ''
    said = [f'Nearest: the effect `{early.form.text()}`. The later `{late.form.text()}` may undo it{where}.']
    if query:
        said.append(f'Ask in `pre` that they differ: `{query}`.')
    else:
        said.append(BEHIND_BOTH if late.conditions else ONE_TOO_MANY)
    return said


def whether(names: Names, action: Form, item: Form, given: Sequence[Form], found: Sequence[Effect]) -> List[str]:
    """What is said of a `kw`."""
    literals = item.rest()
    senses = names.section(action, 'senses')
    single = literals[0] if len(literals) == 1 else None
    atom = None
    if single is not None:
        atom = single.rest()[0] if single.head() == 'not' else single
    effect = [e for e in found if atom is not None and e.verb in ('set', 'unset')
              and e.target[0].text() == atom.text()]
    if single is not None and is_toggle(found, single):
        return toggled(names, action, single)
    if effect and not senses:
        return whether_after(names, item, atom, given, found, effect[0])
    own = ' '.join(p.text() for p in literals)
    said = [f'A `kw` wants a sense of the same literals (J3): `(senses (sense {own}))`. The '
            f'action\'s senses: {", ".join("`" + s.text() + "`" for s in senses) or "none"}.']
    for s in senses:
        if s.head() == 'sense-all' and atom is not None and s.rest()[0].head() == atom.head():
            said.append(f'Nearest: `{s.text()}` (J4): its fixed places must have the same terms as '
                        f'`{atom.text()}`, and where it has `_` the atom must have an object or a '
                        'parameter.')
        if s.head() == 'sense' and any(t.text() == l.text() for t in s.rest() for l in literals):
            said.append(f'Nearest: `{s.text()}` finds whether all of its literals are true '
                        'together: tell just that, or sense this one alone.')
        elif s.head() == 'sense' and not is_told(names, action, s):
            said.append(f'What it finds out isn\'t told: `(kw {" ".join(l.text() for l in s.rest())})`.')
    return said


def whether_after(names: Names, item: Form, atom: Form, given: Sequence[Form], found: Sequence[Effect],
                  effect: Effect) -> List[str]:
    """What is said of a `kw` of an atom that an effect changes."""
    if not effect.conditions:
        sign = '' if effect.verb == 'set' else 'not '
        sure = atom.text() if not sign else f'(not {atom.text()})'
        return [f'Nearest: the effect `{effect.form.text()}` has no condition, so the fact is known, '
                f'not only whether: tell `(kf {sure})`.']
    said = [f'Nearest: the effect `{effect.form.text()}` (J5).']
    if sum(e.subject() == effect.subject() for e in found) > 1:
        said.append(f'It must be the only effect on `{effect.subject()}` in this action.')
    if not is_either_way(atom, given):
        said.append(f'Where the condition fails, `{atom.text()}` stays as it was; so whether it was '
                    f'true must be known: `(kw {atom.text()})` in `pre` or in an `if`.')
    for c in effect.conditions:
        if not is_either_way(c, given):
            said.append(f'Whether the condition holds must be known: `(kw {c.text()})` in `pre` or '
                        'in an `if`.')
    return said


def value(names: Names, action: Form, item: Form, given: Sequence[Form], found: Sequence[Effect]) -> List[str]:
    """What is said of a `kv`."""
    term = item.rest()[0]
    for i, e in enumerate(found):
        if e.verb == 'assign' and e.target[0].text() == term.text():
            if e.conditions:
                return [f'Nearest: `{e.form.text()}` (J7), but it has a condition, and where that '
                        'fails the old value stays. Sense the value: `(sense-value '
                        f'{term.text()})`.']
            for late in found[i + 1:]:
                if may_undo(names, e, late, given):
                    return undone(e, late)
            source = e.target[1]
            return [f'Nearest: `{e.form.text()}` (J7). The assigned value is known only where that '
                    f'of `{source.text()}` is: `(if ((kv {source.text()})) {item.text()})`, or '
                    f'`(kv {source.text()})` in `pre`.']
    senses = names.section(action, 'senses')
    return [f'A `kv` wants a sense of this value (J6), `(senses (sense-value {term.text()}))`, or '
            f'an `assign` of a known value to it (J7). The action\'s senses: '
            f'{", ".join("`" + s.text() + "`" for s in senses) or "none"}.']


def region(names: Names, action: Form, item: Form, given: Sequence[Form], found: Sequence[Effect]) -> List[str]:
    """What is said of an `lcw`."""
    pattern = item.rest()[0]
    for i, e in enumerate(found):
        if e.verb == 'clear' and e.target[0].text() == pattern.text():
            if e.conditions:
                return [f'Nearest: `{e.form.text()}` (J8), but it has a condition.']
            late = next((l for l in found[i + 1:] if l.verb == 'set'
                         and l.subject() == pattern.head()), None)
            if late:
                return [f'Nearest: `{e.form.text()}` (J8). The later `{late.form.text()}` fills the '
                        'region again: write it before the `clear`, or make it an action of its own.']
    said = [f'An `lcw` wants an effect that clears the same pattern (J8): `(clear {pattern.text()})`, '
            'without a condition and with no `set` on the predicate behind it.']
    if names.section(action, 'senses'):
        said.append('Sensing never closes a region: tell `(kw ..)` of each atom that matters.')
    return said
