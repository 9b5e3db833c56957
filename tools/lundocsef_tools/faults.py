"""Where a fault of a model stands, and what has probably caused it."""
import re

from .deep_faults import deep_fault
from .expressions import names
from .failure import Failure
from .model_reader import read_model
from .readable import readable
from .tokens import RESERVED, TOKEN, line_of, without_comments

NAMED_AFTER = ('capacity', 'level', 'state', 'kind', 'param', 'slot', 'use', 'raise', 'lower', 'set', 'must', 'link', 'order')
TAKEN = ('this name is taken; timelines and kinds share their names, and so do the parameters of a kind, the slots of an alternative, '
         'the states of a timeline')
SORTS = {'use': 'capacity', 'raise': 'level', 'lower': 'level', 'set': 'state timeline', 'must': 'state timeline'}
PARTS = ('use', 'raise', 'lower', 'set', 'must', 'link', 'alternative')


def explain(path, text, fault):
    """The program's fault line, as lines for the user: file, line, column, the place, the cause and what to do."""
    placed = re.search(r'(unexpected|too deep|bad byte|bad number|bad name) at (\d+)', fault)
    if placed:
        at = int(placed.group(2))
        return [fault] + place(path, text, at, cause_at(placed.group(1), text, at))
    named = re.search(r'(unknown name|name twice): (\w+)', fault)
    if named:
        return [fault] + of_name(path, text, named.group(1), named.group(2))
    if fault.strip() == 'model: no begin':
        return [fault, '%s: put a line `begin` behind the model; the messages, or a journal, come after it' % path]
    if fault.strip() == 'model: too long':
        return [fault, '%s: a model has at most 1048576 bytes' % path]
    try:
        return [fault] + deep_fault(path, text, read_model(text), fault)
    except Failure as failure:
        return [fault, str(failure)]


def place(path, text, at, cause):
    """FILE:LINE:COLUMN and the cause; then the line of the text with a caret below the place."""
    at = min(at, len(text))
    if at == len(text):
        at = len(without_comments(text).rstrip())          # the text ends too early: show where its last token ends
    first = text.rfind('\n', 0, at) + 1
    last = text.find('\n', at)
    line = text[first:last if last >= 0 else len(text)].replace('\t', ' ').rstrip('\r')
    column = at - first
    start = max(0, column - 60)                            # a long line is shown around the place
    before = ('...' if start else '') + readable(line[start:column])
    return ['%s:%d:%d: %s' % (path, line_of(text, at), column + 1, cause),
            '  ' + before + readable(line[column:column + 60]), '  ' + ' ' * len(before) + '^']


def distance(first, second):
    """How many letters have to be changed, put in or left out to make one word of the other."""
    row = list(range(len(second) + 1))
    for number, letter in enumerate(first, 1):
        diagonal, row[0] = row[0], number
        for at, other in enumerate(second, 1):
            diagonal, row[at] = row[at], min(row[at] + 1, row[at - 1] + 1, diagonal + (letter != other))
    return row[-1]


def nearest(word, words):
    """A word that may have been meant; None where none is near."""
    best = min(words, key=lambda each: distance(word, each), default=None)
    return best if best is not None and 0 < distance(word, best) <= min(2, len(word) - 1) else None


def cause_at(fault, text, at):
    """A guess at why this token does not fit here."""
    before = TOKEN.findall(without_comments(text)[:at])
    rest = text[at:]
    match = TOKEN.match(rest)
    token = match.group(0) if match else rest[:1]
    if fault == 'bad byte':
        return cause_of_byte(token, before)
    if fault == 'bad number':
        return 'a number has at most 18 digits'
    if fault == 'bad name':
        return 'a name has at most 32 letters, digits and _'
    if fault == 'too deep':
        return 'an expression has at most 32 levels, and its brackets nest at most 32 deep; give a part of it a parameter of its own'
    if not without_comments(rest).strip():
        return 'the text ends here; %s' % ('a } is missing' if before.count('{') > before.count('}') else 'more is wanted')
    return cause_of_token(token, before)


def cause_of_byte(byte, before):
    if byte == '.' and before and before[-1].isdigit():
        return 'numbers are whole; choose a smaller unit, tenths for instance'
    if byte in ';:':
        return '%s belongs to no model; the parts follow each other without a separator' % byte
    return strange(byte)


def strange(byte):
    """Why a byte belongs to no token."""
    if ord(byte) > 126:
        return 'a sign that belongs to no token: names have the letters a to z and A to Z, digits and _'
    return '%r belongs to no token: there are names, whole numbers, and { } ( ) , = + - *' % byte


def cause_of_token(token, before):
    last = before[-1] if before else ''
    in_kind = 'kind' in before and before.count('{') > before.count('}')
    since_kind = before[len(before) - 1 - before[::-1].index('kind'):] if in_kind else []
    if not before:
        return 'a model begins with `horizon NUMBER lead NUMBER`'
    if token in ('goal', 'tick', 'tele', 'until', 'halt'):
        return '`%s` begins a message; the line `begin` stands before the messages' % token
    if token in RESERVED and last in NAMED_AFTER:
        return '`%s` is a reserved word and cannot be a name' % token
    if token == '-' and last[:1].isalpha():
        return 'a name has letters, digits and _, so `%s-...` is none' % last
    if in_kind and token in PARTS and 'duration' not in since_kind:
        return 'in a kind the parameters come first, then `duration`, then `%s`' % token
    if in_kind and token == 'param':
        return 'the parameters of a kind stand before its `duration`'
    if in_kind and token in ('kind', 'capacity', 'level', 'state'):
        return 'the } of the kind `%s` is missing' % since_kind[1] if len(since_kind) > 1 else 'a } is missing'
    if in_kind and token == '}' and 'duration' not in since_kind:
        return 'each kind has a `duration`'
    if in_kind and amount_without_point(since_kind):
        return '`at start` or `at end` is missing behind the amount'
    meant = nearest(token, RESERVED) if token not in RESERVED else None
    if meant:
        return 'did you mean `%s`?' % meant
    if token[:1].isdigit() and last.isdigit():
        return 'there is one number too many'
    return '`%s` does not fit behind `%s`' % (token, last)


def amount_without_point(tokens):
    """Whether the last part is a raise or lower that lacks its `at`."""
    for token in reversed(tokens):
        if token in ('raise', 'lower'):
            return True
        if token in ('at', 'use', 'set', 'must', 'link', 'duration', 'param'):
            return False
    return False


def of_name(path, text, fault, name):
    """Every place of the name; for a name that stands twice, those behind the first."""
    bare = without_comments(text)
    places = [match.start() for match in re.finditer(r'(?<![A-Za-z0-9_])%s(?![A-Za-z0-9_])' % re.escape(name), bare)]
    if fault == 'name twice':
        return twice(path, text, bare, places)
    try:
        wrong = unknown_uses(read_model(text), name)
    except Failure:
        wrong = []
    cause = '; '.join(wrong) or 'no such name is declared'
    others = set(re.findall(r'[A-Za-z]\w*', bare)) - {name} - set(RESERVED)
    meant = nearest(name, others)
    if meant and not any(word.startswith('`') for word in wrong):
        cause += '; did you mean `%s`?' % meant
    return [line for at in places for line in place(path, text, at, cause)]


def twice(path, text, bare, places):
    """The second declaration of a name in one place where two may not be."""
    declared = [at for at in places if re.search(r'(capacity|level|state|kind|param|slot)\s+$', bare[:at])]
    shown = (declared if len(declared) > 1 else places)[1:] or places
    return [line for at in shown[:3] for line in place(path, text, at, TAKEN)]


def unknown_uses(model, name):
    """In words, where a name is used as what it is not."""
    found = []
    for line in model.timelines:
        if line.sort == 'state' and name not in line.states and name in [line.start] + [state for step in line.steps for state in step]:
            found.append('%s is no state of `%s`' % (name, line.name))
    for kind in model.kinds:
        found += unknown_in_kind(model, kind, name)
    return found


def unknown_in_kind(model, kind, name):
    for each in kind.reservations:
        line = model.timeline_named.get(each.timeline)
        if each.timeline == name and (line is None or not SORTS[each.verb].startswith(line.sort)):
            other = '' if line is None else ', and %s is a %s' % (name, line.sort)
            yield 'kind `%s`: `%s` wants the name of a %s%s' % (kind.name, each.verb, SORTS[each.verb], other)
        if each.state == name and line is not None and line.sort == 'state' and name not in line.states:
            yield 'kind `%s`: %s has no state %s, but %s' % (kind.name, line.name, name, ', '.join(line.states))
    for link in kind.links:
        if link.kind == name and name not in model.kind_named:
            yield 'kind `%s`: `link` wants the name of a kind' % kind.name
    yield from unknown_in_expressions(kind, name)
    for alternative in kind.alternatives:
        yield from unknown_in_alternative(model, kind, alternative, name)


def unknown_in_expressions(kind, name):
    expressions = [kind.duration] + [each.amount for each in kind.reservations if each.amount is not None]
    expressions += [param.formula for param in kind.params if param.formula is not None]
    if kind.param(name) is None and any(name in names(expression) for expression in expressions):
        yield 'kind `%s` has no parameter %s' % (kind.name, name)


def unknown_in_alternative(model, kind, alternative, name):
    slots = {slot.name for slot in alternative.slots}
    for slot in alternative.slots:
        its_kind = model.kind_named.get(slot.kind)
        if slot.kind == name and its_kind is None:
            yield 'kind `%s`: the slot `%s` wants the name of a kind' % (kind.name, slot.name)
        for left, right in slot.bindings.items():
            param = its_kind.param(left) if its_kind else None
            if left == name and its_kind and param is None:
                yield 'kind `%s`, slot `%s`: %s has no parameter %s' % (kind.name, slot.name, its_kind.name, name)
            elif left == name and param and param.formula is not None:
                yield 'kind `%s`, slot `%s`: %s of %s follows from others (it has a `=`) and cannot be bound' % (
                    kind.name, slot.name, name, its_kind.name)
            if name in names(right) and kind.param(name) is None:
                yield 'kind `%s`, slot `%s`: what is bound is worked out from the parameters of `%s`, and it has no %s' % (
                    kind.name, slot.name, kind.name, name)
    for order in alternative.orders:
        if name in (order.first, order.second) and name not in slots and name != 'parent':
            yield 'kind `%s`: `order` wants the name of a slot of this alternative, or `parent`' % kind.name
