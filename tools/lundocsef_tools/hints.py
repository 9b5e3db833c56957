"""What a model means for repair, and what `check` lets pass though it can never work."""
from .expressions import bounds
from .values import GREATEST_AMOUNT

TRIED = 4            # so many kinds are tried for a level, a state or a step, the first of the text


def additions(model):
    """What a repair may add that no goal asked for, a line for each reason."""
    for line in model.timelines:
        if line.sort == 'level':
            yield '%s below %d: %s' % (line.name, line.least, first_of(changers(model, line, 'raise')))
            yield '%s above %d: %s' % (line.name, line.most, first_of(changers(model, line, 'lower')))
        elif line.sort == 'state':
            for state in needed(model, line):
                yield '%s is needed to be %s: %s' % (line.name, state, first_of(setters(model, line, state)))
            if not line.any_step:
                yield '%s is set by a step that is not allowed: %s' % (line.name, first_of(setters(model, line)))
    for kind in model.kinds:
        for link in kind.links:
            yield 'a link of %s has no partner: %s' % (kind.name, link.kind)


def first_of(names):
    if not names:
        return 'nothing'
    return ', '.join(names[:TRIED]) + (' (never tried: %s)' % ', '.join(names[TRIED:]) if names[TRIED:] else '')


def changers(model, line, verb):
    return [kind.name for kind in model.kinds if any(each.verb == verb and each.timeline == line.name for each in kind.reservations)]


def setters(model, line, state=None):
    return [kind.name for kind in model.kinds
            if any(each.verb == 'set' and each.timeline == line.name and state in (None, each.state) for each in kind.reservations)]


def needed(model, line):
    """The states that some kind needs, in the order of the timeline."""
    states = {each.state for kind in model.kinds for each in kind.reservations if each.verb == 'must' and each.timeline == line.name}
    return [state for state in line.states if state in states]


def warnings(model):
    """What an author will regret, a sentence each."""
    for line in model.timelines:
        if line.sort == 'state':
            yield from of_states(model, line)
        elif line.sort == 'level' and not line.least <= line.start <= line.most:
            yield 'level %s starts at %d, outside its limits %d to %d: nothing is committed until that is mended' % (
                line.name, line.start, line.least, line.most)
    for kind in model.kinds:
        yield from of_amounts(model, kind)
        yield from of_chains(kind)
        yield from of_may_goals(kind)
        yield from of_alternatives(model, kind)


def of_states(model, line):
    for state in needed(model, line):
        if state != line.start and not setters(model, line, state):
            yield 'state %s is needed to be %s, and no kind sets it so' % (line.name, state)
    if line.any_step:
        return
    reached = [line.start]
    for state in reached:
        reached += [after for before, after in line.steps if before == state and after not in reached]
    for state in line.states:
        if state not in reached:
            yield 'state %s can never become %s by the steps that are allowed from %s' % (line.name, state, line.start)


def of_amounts(model, kind):
    for each in kind.reservations:
        if each.amount is None:
            continue
        low, high = bounds(each.amount, kind.ranges())
        if high < 0 or low > GREATEST_AMOUNT:
            yield 'kind %s: the amount of `%s %s` is never from 0 to %d, so no such activity is ever right' % (
                kind.name, each.verb, each.timeline, GREATEST_AMOUNT)
        elif low < 0:
            yield 'kind %s: the amount of `%s %s` can come to %d, and an amount below 0 is a conflict' % (
                kind.name, each.verb, each.timeline, low)
        if each.verb == 'use':
            most = model.timeline_named[each.timeline].most
            if low > most:
                yield 'kind %s uses at least %d of %s, and there are %d: it can never run' % (kind.name, low, each.timeline, most)


def of_chains(kind):
    """Links with which each activity of a kind needs another one before it, or after it, and so on without an end."""
    for link in kind.links:
        if link.kind != kind.name:
            continue
        same = link.mine == link.theirs
        before = link.high < 0 if same else link.high <= 0 and link.mine == 'start'
        after = link.low > 0 if same else link.low >= 0 and link.mine == 'end'
        if before or after:
            yield 'kind %s: each needs another %s %s it, so the %s of them never has its partner, and that conflict stays' % (
                kind.name, kind.name, 'before' if before else 'after', 'first' if before else 'last')


def of_may_goals(kind):
    """Goals that may be dropped are, where every place for them leaves something else wrong."""
    free = kind.without_value()
    if kind.alternatives:
        yield 'a `may` goal of %s is dropped at once, since a new %s has no alternative chosen; a `must` goal is not' % (kind.name, kind.name)
    elif free:
        yield 'a `may` goal of %s is dropped at once unless it presets %s' % (kind.name, ', '.join(free))


def of_alternatives(model, kind):
    """Slots that may last longer than the room that the earliest times leave for them before the next slot."""
    for number, alternative in enumerate(kind.alternatives):
        starts = dict(zip((slot.name for slot in alternative.slots), model.offsets(kind, number)))
        for order in alternative.orders:
            if order.first == 'parent' or order.second == 'parent' or (order.first_point, order.second_point) != ('end', 'start'):
                continue
            slot = next(slot for slot in alternative.slots if slot.name == order.first)
            longest, room = longest_of(model, kind, slot), starts[order.second] - starts[order.first] - order.low
            if longest > room:
                yield ('kind %s, alternative %d: %s may last %d, and %s is placed where it may last %d; longer ones leave an order unmet at first'
                       % (kind.name, number, slot.name, longest, order.second, room))


def longest_of(model, parent, slot):
    """The longest that the activity of a slot can last, whatever the values of its parent."""
    kind = model.kind_named[slot.kind]
    ranges = kind.ranges()
    for name, expression in slot.bindings.items():
        ranges[name] = common(ranges[name], bounds(expression, parent.ranges()))
    for param in kind.params:
        if param.formula is not None:
            ranges[param.name] = common(ranges[param.name], bounds(param.formula, ranges))
    return min(model.horizon, bounds(kind.duration, ranges)[1])


def common(first, second):
    """What two ranges share; the first where they share nothing."""
    low, high = max(first[0], second[0]), min(first[1], second[1])
    return (low, high) if low <= high else first
