"""Faults that the program tells without a place: numbers out of range, too many of something, circles, orders that cannot be met."""
import re

from .expressions import bounds, names
from .network import impossible_cycle
from .tokens import without_comments

GREATEST, GREATEST_LEVEL, GREATEST_HORIZON = 10 ** 9, 10 ** 12, 10 ** 7
MOST = {'timelines': 256, 'kinds': 256, 'states': 32, 'params': 16, 'reservations': 32, 'links': 16, 'alternatives': 8, 'slots': 16,
        'orders': 64, 'nodes': 64}


def deep_fault(path, text, model, fault):
    ranged = re.search(r'out of range: (\w+)', fault)
    many = re.search(r'too many: (\w+)', fault)
    circle = re.search(r'circular: kind (\w+), parameter (\w+)', fault)
    recursive = re.search(r'recursive: kind (\w+)', fault)
    schedule = re.search(r'no schedule: kind (\w+), alternative (\d+)', fault)
    if ranged:
        found = list(OUT_OF_RANGE[ranged.group(1)](model))
    elif many:
        found = list(too_many(model, many.group(1)))
    elif circle:
        found = [circle_of_params(model.kind_named[circle.group(1)], circle.group(2))]
    elif recursive:
        found = [circle_of_kinds(model, recursive.group(1))]
    elif schedule:
        found = no_schedule(model, model.kind_named[schedule.group(1)], int(schedule.group(2)))
    else:
        found = []
    return ['%s: %s' % (located(path, text, each), each) if not each.startswith('  ') else each for each in found]


def located(path, text, sentence):
    """FILE:LINE of the kind or timeline with which a sentence begins."""
    match = re.match(r'(kind|capacity|level|state) (\w+)', sentence)
    found = match and re.search(r'\b%s\s+%s\b' % match.groups(), without_comments(text))
    return '%s:%d' % (path, text.count('\n', 0, found.start()) + 1) if found else path


def wrong_horizon(model):
    yield 'horizon %d is not from 2 to %d' % (model.horizon, GREATEST_HORIZON)


def wrong_lead(model):
    yield 'lead %d is not from 1 to the horizon, %d' % (model.lead, model.horizon)


def wrong_capacity(model):
    for line in model.timelines:
        if line.sort == 'capacity' and line.most > GREATEST:
            yield 'capacity %s: %d is above %d' % (line.name, line.most, GREATEST)


def wrong_level(model):
    for line in model.timelines:
        if line.sort != 'level':
            continue
        if line.least > line.most:
            yield 'level %s: its least, %d, is above its most, %d; the numbers are least, most, start' % (line.name, line.least, line.most)
        if max(line.least, line.most, line.start) > GREATEST_LEVEL:
            yield 'level %s: a number is above %d' % (line.name, GREATEST_LEVEL)


def wrong_param(model):
    for kind in model.kinds:
        for param in kind.params:
            if param.low > param.high:
                yield 'kind %s, parameter %s: %d is above %d; the least value stands first' % (kind.name, param.name, param.low, param.high)
            elif param.default is not None and not param.low <= param.default <= param.high:
                yield 'kind %s, parameter %s: the default %d is not from %d to %d' % (
                    kind.name, param.name, param.default, param.low, param.high)
            elif param.high > GREATEST:
                yield 'kind %s, parameter %s: %d is above %d' % (kind.name, param.name, param.high, GREATEST)


def wrong_duration(model):
    for kind in model.kinds:
        low, high = bounds(kind.duration, kind.ranges())
        if high < 1 or low > model.horizon:
            yield 'kind %s: its duration comes to %d at least and %d at most, and has to meet 1 to the horizon, %d' % (
                kind.name, low, high, model.horizon)


def wrong_distance(low, high, horizon):
    if low > high:
        return '%d to %d is the wrong way round; `%d %d`?' % (low, high, high, low)
    if low < -horizon or high > horizon:
        return '%d to %d goes farther than the horizon, %d' % (low, high, horizon)
    return None


def wrong_link(model):
    for kind in model.kinds:
        for link in kind.links:
            wrong = wrong_distance(link.low, link.high, model.horizon)
            if wrong:
                yield 'kind %s, link to %s: %s' % (kind.name, link.kind, wrong)


def wrong_order(model):
    for kind in model.kinds:
        for number, alternative in enumerate(kind.alternatives):
            for order in alternative.orders:
                wrong = wrong_distance(order.low, order.high, model.horizon)
                if wrong:
                    yield 'kind %s, alternative %d, order %s %s %s %s: %s' % (
                        kind.name, number, order.first, order.first_point, order.second, order.second_point, wrong)


def wrong_literal(model):
    yield 'a number in an expression is above %d' % GREATEST


OUT_OF_RANGE = {'horizon': wrong_horizon, 'lead': wrong_lead, 'capacity': wrong_capacity, 'level': wrong_level, 'param': wrong_param,
                'duration': wrong_duration, 'link': wrong_link, 'order': wrong_order, 'literal': wrong_literal}


def too_many(model, what):
    most = MOST.get(what, 0)
    if what in ('timelines', 'kinds'):
        yield 'there are %d %s, and at most %d may be' % (len(getattr(model, what)), what, most)
    for line in model.timelines:
        if what == 'states' and line.sort == 'state' and len(line.states) > most:
            yield 'state %s has %d states, and at most %d may be' % (line.name, len(line.states), most)
    for kind in model.kinds:
        owners = kind.alternatives if what in ('slots', 'orders') else [kind]
        for owner in owners:
            count = len(getattr(owner, what, ()))
            if count > most:
                where = ' in an alternative' if owner is not kind else ''
                yield 'kind %s has %d %s%s, and at most %d may be' % (kind.name, count, what, where, most)
    if what == 'nodes':
        yield 'an expression has more than %d numbers, names and operators; give a part of it a parameter of its own' % most


def circle_of_params(kind, start):
    depends = {param.name: sorted(names(param.formula)) if param.formula is not None else [] for param in kind.params}
    return 'kind %s: %s' % (kind.name, ' depends on '.join(circle(depends, start)))


def circle_of_kinds(model, start):
    contains = {kind.name: [slot.kind for alternative in kind.alternatives for slot in alternative.slots] for kind in model.kinds}
    return 'kind %s: %s' % (start, ' contains '.join(circle(contains, start)))


def circle(following, start):
    """A way from a name back to itself."""
    paths = [[start]]
    for path in paths:
        for name in following.get(path[-1], []):
            if name == start:
                return path + [start]
            if name not in path:
                paths.append(path + [name])
    return [start, start]


def no_schedule(model, kind, number):
    cycle = impossible_cycle(model, kind, kind.alternatives[number])
    return ['kind %s, alternative %d: these cannot hold together:' % (kind.name, number)] + ['  ' + edge.reason for edge in cycle]
