"""Conflicts and activities in words."""
from .values import DURATION, FIRST_AMOUNT


def sentence(plan, conflict):
    """What is wrong, as a sentence that names things as the model does."""
    return SENTENCES[conflict.code](plan, conflict)


def name_of(plan, number):
    activity = plan.world.activities.get(number)
    return '#%d %s' % (number, activity.kind.name) if activity else '#%d' % number


def kind_of(plan, conflict):
    return plan.world.activities[conflict.subject].kind


def open_goal(plan, conflict):
    goal = plan.world.goals[conflict.subject]
    return 'goal %d has no activity; a %s is to start from %d to %d' % (conflict.subject, goal.kind, conflict.a, conflict.b)


def off_goal(plan, conflict):
    start = plan.world.activities[conflict.subject].start
    return '%s starts at %d, outside the window of goal %d, %d to %d' % (
        name_of(plan, conflict.subject), start, conflict.detail, conflict.a, conflict.b)


def late(plan, conflict):
    return '%s was to start at %d and is not committed' % (name_of(plan, conflict.subject), conflict.moment)


def unset(plan, conflict):
    return '%s has no value for %s' % (name_of(plan, conflict.subject), kind_of(plan, conflict).params[conflict.detail].name)


def bad_value(plan, conflict):
    kind, values = kind_of(plan, conflict), plan.snapshot.evaluations[conflict.subject].values
    if conflict.detail == DURATION:
        what, low, high = 'its duration', 1, plan.model.horizon
        number = plan.snapshot.evaluations[conflict.subject].duration
    elif conflict.detail >= FIRST_AMOUNT:
        each = kind.reservations[conflict.detail - FIRST_AMOUNT]
        what, low, high = 'the amount of `%s %s`' % (each.verb, each.timeline), 0, 10 ** 9
        number = plan.snapshot.evaluations[conflict.subject].amounts[conflict.detail - FIRST_AMOUNT]
    else:
        param = kind.params[conflict.detail]
        what, low, high, number = param.name, param.low, param.high, values[param.name]
    is_now = 'has no value' if number is None else 'is %d' % number
    return '%s: %s %s, and has to be from %d to %d' % (name_of(plan, conflict.subject), what, is_now, low, high)


def undetailed(plan, conflict):
    return '%s has alternatives, and none is chosen' % name_of(plan, conflict.subject)


def overrun(plan, conflict):
    return '%s ends at %d, behind the horizon, %d' % (name_of(plan, conflict.subject), conflict.a, plan.model.horizon)


def temporal(plan, conflict):
    kind = kind_of(plan, conflict)
    link = kind.links[conflict.detail]
    partner = 'other ' + link.kind if link.kind == kind.name else link.kind
    return '%s: no %s %ss %s it %ss' % (name_of(plan, conflict.subject), partner, link.theirs, distance(link.low, link.high), link.mine)


def distance(low, high):
    """How far a second point is to lie from a first one, up to the word before the first."""
    if low == high == 0:
        return 'at the moment at which'
    if low >= 0:
        return '%d to %d after' % (low, high) if low < high else '%d after' % low
    if high <= 0:
        return '%d to %d before' % (-high, -low) if low < high else '%d before' % -low
    return 'from %d before to %d after' % (-low, high)


def link(plan, conflict):
    activity = plan.world.activities[conflict.subject]
    order = activity.kind.alternatives[activity.alternative].orders[conflict.detail]
    return '%s: %s' % (name_of(plan, conflict.subject), order_text(order, 'does not'))


def order_text(order, does='is to'):
    """`b is to start 0 to 10 after a ends`."""
    places = ['the parent' if place == 'parent' else place for place in (order.second, order.first)]
    return '%s %s %s %s %s %ss' % (places[0], does, order.second_point, distance(order.low, order.high), places[1], order.first_point)


def of_timeline(words, limit):
    def told(plan, conflict):
        line = plan.model.timelines[conflict.subject]
        values = [value for _, _, value in plan.snapshot.profiles[line.name].pieces(conflict.a, conflict.b)]
        worst = min(values) if limit == 'least' else max(values)
        return '%s is %s from %d to %d: %d, and the %s is %d' % (
            line.name, words, conflict.a, conflict.b, worst, limit, getattr(line, limit))
    return told


def must(plan, conflict):
    each = kind_of(plan, conflict).reservations[conflict.detail]
    states = []
    for _, _, state in plan.snapshot.profiles[each.timeline].pieces(conflict.a, conflict.b):
        if state not in states:
            states.append(state)
    return '%s needs %s %s, and it is %s from %d to %d' % (
        name_of(plan, conflict.subject), each.timeline, each.state, ' and '.join(states), conflict.a, conflict.b)


def bad_step(plan, conflict):
    each = kind_of(plan, conflict).reservations[conflict.detail]
    before = next((step.before for step in plan.snapshot.bad_steps
                   if step.change.activity.id == conflict.subject and step.change.reservation == conflict.detail), '?')
    return '%s sets %s to %s at %d, and there is no step to it from %s' % (
        name_of(plan, conflict.subject), each.timeline, each.state, conflict.a, before)


SENTENCES = {
    'open-goal': open_goal, 'off-goal': off_goal, 'late': late, 'unset': unset, 'bad-value': bad_value, 'undetailed': undetailed,
    'overrun': overrun, 'temporal': temporal, 'link': link, 'must': must, 'bad-step': bad_step,
    'over': of_timeline('in use more than there is', 'most'),
    'low': of_timeline('below its least', 'least'),
    'high': of_timeline('above its most', 'most'),
}


def standing(plan, activity):
    """How far an activity is: sent, committed or planned."""
    if activity.id in plan.world.sent_at:
        return 'sent'
    return 'committed' if plan.world.is_committed(activity) else 'planned'


def activity_text(plan, activity, times=''):
    """An activity in a few lines: what it is, its values, how far it is, why it is there, and what is wrong with it."""
    end = plan.snapshot.end(activity)
    lines = ['#%d %s, %d to %s%s' % (activity.id, activity.kind.name, activity.start, '?' if end is None else end, times)]
    values = plan.snapshot.evaluations[activity.id].text()
    if values:
        lines.append(values)
    how = {'sent': 'its command was sent at %s' % plan.world.sent_at.get(activity.id),
           'committed': 'committed', 'planned': 'planned, not yet committed'}
    lines.append(how[standing(plan, activity)] + ('; done by the activities that it contains' if activity.kind.alternatives else ''))
    if activity.goal is not None:
        lines.append('stands for goal %d' % activity.goal)
    elif activity.parent is not None:
        lines.append('fills the slot %s of %s' % (activity.slot_of_parent().name, name_of(plan, activity.parent.id)))
    else:
        lines.append('added by a repair; no goal asked for it')
    lines += ['WRONG: ' + sentence(plan, conflict) for conflict in plan.wrong.get(activity.id, [])]
    return '\n'.join(lines)
