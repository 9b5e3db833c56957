"""Reads the text of a model that the program accepts.

The program is the judge of models; this reader only follows what it has accepted. Where the text is no model it raises a
Failure with the line, so that a tool that works without the program still says something useful.
"""
from .expressions import Operation
from .failure import Failure
from .model import Alternative, Capacity, Kind, Level, Link, Model, Order, Param, Reservation, Slot, States
from .readable import readable
from .tokens import is_begin, line_of, tokens


class Cursor:
    """A place in the tokens of a text."""

    def __init__(self, text):
        self.text = text
        self.tokens = tokens(text)
        self.next = 0

    def peek(self):
        return self.tokens[self.next].text if self.next < len(self.tokens) else None

    def take(self, wanted=None):
        token = self.peek()
        if token is None or (wanted is not None and token != wanted):
            at = self.tokens[self.next].at if self.next < len(self.tokens) else len(self.text)
            found = 'the text ends' if token is None else '`%s` stands' % token
            raise Failure('the model, line %d: %s where %s is wanted' % (
                line_of(self.text, at), found, '`%s`' % wanted if wanted else 'more'))
        self.next += 1
        return token

    def has(self, wanted):
        if self.peek() != wanted:
            return False
        self.next += 1
        return True

    def number(self):
        token = self.take()
        if not token.isdigit():
            self.next -= 1
            self.take('a number')
        return int(token)

    def signed(self):
        return -self.number() if self.has('-') else self.number()

    def expression(self):
        left = self.term()
        while self.peek() in ('+', '-'):
            left = Operation(self.take(), left, self.term())
        return left

    def term(self):
        left = self.factor()
        while self.has('*'):
            left = Operation('*', left, self.factor())
        return left

    def factor(self):
        token = self.take()
        if token == '(':
            inner = self.expression()
            self.take(')')
            return inner
        if token in ('min', 'max'):
            self.take('(')
            left = self.expression()
            self.take(',')
            right = self.expression()
            self.take(')')
            return Operation(token, left, right)
        return int(token) if token.isdigit() else token


def read_param(cursor):
    param = Param(cursor.take(), cursor.number(), cursor.number())
    if cursor.has('default'):
        param.default = cursor.number()
    elif cursor.has('='):
        param.formula = cursor.expression()
    return param


def read_reservation(cursor, verb):
    timeline = cursor.take()
    if verb == 'use':
        return Reservation(verb, timeline, amount=cursor.expression())
    if verb == 'must':
        return Reservation(verb, timeline, state=cursor.take())
    if verb == 'set':
        reservation = Reservation(verb, timeline, state=cursor.take())
    else:
        reservation = Reservation(verb, timeline, amount=cursor.expression())
    cursor.take('at')
    reservation.point = cursor.take()
    return reservation


def read_slot(cursor):
    slot = Slot(cursor.take(), cursor.take(), {})
    if cursor.has('('):
        while True:
            name = cursor.take()
            cursor.take('=')
            slot.bindings[name] = cursor.expression()
            if not cursor.has(','):
                break
        cursor.take(')')
    return slot


def read_alternative(cursor):
    alternative = Alternative()
    cursor.take('{')
    while not cursor.has('}'):
        if cursor.has('slot'):
            alternative.slots.append(read_slot(cursor))
        else:
            cursor.take('order')
            alternative.orders.append(Order(cursor.take(), cursor.take(), cursor.take(), cursor.take(), cursor.signed(), cursor.signed()))
    return alternative


def read_kind(cursor, number):
    kind = Kind(cursor.take(), number)
    cursor.take('{')
    while cursor.has('param'):
        kind.params.append(read_param(cursor))
    cursor.take('duration')
    kind.duration = cursor.expression()
    while not cursor.has('}'):
        word = cursor.take()
        if word in ('use', 'raise', 'lower', 'set', 'must'):
            kind.reservations.append(read_reservation(cursor, word))
        elif word == 'link':
            kind.links.append(Link(cursor.take(), cursor.take(), cursor.take(), cursor.signed(), cursor.signed()))
        elif word == 'alternative':
            kind.alternatives.append(read_alternative(cursor))
        else:
            cursor.next -= 1
            cursor.take('}')
    return kind


def read_states(cursor, name, number):
    cursor.take('{')
    states = []
    while not cursor.has('}'):
        states.append(cursor.take())
    cursor.take('start')
    line = States(name, number, states, cursor.take(), cursor.has('any'), [])
    while cursor.has('step'):
        line.steps.append((cursor.take(), cursor.take()))
    return line


def read_timeline(cursor, number):
    sort = cursor.take()
    if sort not in ('capacity', 'level', 'state'):
        cursor.next -= 1
        cursor.take('capacity, level, state or kind')
    name = cursor.take()
    if sort == 'capacity':
        return Capacity(name, number, cursor.number())
    if sort == 'level':
        return Level(name, number, cursor.number(), cursor.number(), cursor.number())
    return read_states(cursor, name, number)


def title_of(text):
    """The first comment's first sentence, which a model's author tends to give as its name."""
    for line in text.split('\n'):
        if line.strip().startswith('#'):
            return readable(line.strip().lstrip('#').strip()).split('. ')[0].rstrip('.')
        if line.strip():
            break
    return ''


def read_model(text):
    """The model of a text without the `begin` line."""
    cursor = Cursor(text)
    cursor.take('horizon')
    horizon = cursor.number()
    cursor.take('lead')
    model = Model(horizon, cursor.number(), title_of(text))
    while cursor.peek() is not None:
        if cursor.has('kind'):
            model.kinds.append(read_kind(cursor, len(model.kinds)))
        else:
            model.timelines.append(read_timeline(cursor, len(model.timelines)))
    model.index()
    return model


def split_at_begin(text):
    """The text before the `begin` line and the lines behind it; None for the lines where there is no such line."""
    lines = text.split('\n')
    for number, line in enumerate(lines):
        if is_begin(line):
            return ''.join(line + '\n' for line in lines[:number]), lines[number + 1:]
    return text, None
