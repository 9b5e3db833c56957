"""What is wrong with a plan, worked out anew from a snapshot, in the order in which the program lists it."""
from bisect import bisect_left, bisect_right

from .journal import Conflict


def conflicts(snapshot):
    world = snapshot.world
    found = list(of_goals(world))
    for activity in world.activities.values():
        found += of_values(snapshot, activity)
    found += of_links(snapshot)
    for activity in world.activities.values():
        found += of_orders(snapshot, activity)
    for line in snapshot.model.timelines:
        found += of_timeline(snapshot, line)
    for step in snapshot.bad_steps:
        change = step.change
        found.append(Conflict(change.activity.start, 'bad-step', change.activity.id, change.reservation, change.moment, 0))
    return sorted(found, key=Conflict.key)


def of_goals(world):
    for goal in world.goals.values():
        root = world.serving.get(goal.number)
        if root is None:
            if goal.number not in world.dropped and goal.latest >= world.floor():
                yield Conflict(goal.latest, 'open-goal', goal.number, 0, goal.earliest, goal.latest)
        elif not world.is_committed(root) and not goal.earliest <= root.start <= goal.latest:
            yield Conflict(min(root.start, goal.latest), 'off-goal', root.id, goal.number, goal.earliest, goal.latest)


def of_values(snapshot, activity):
    """What is wrong with an uncommitted activity by itself."""
    world, evaluation = snapshot.world, snapshot.evaluations[activity.id]
    if world.is_committed(activity):
        return
    if activity.start <= world.now:
        yield Conflict(activity.start, 'late', activity.id, 0, 0, 0)
    for number in evaluation.unset:
        yield Conflict(activity.start, 'unset', activity.id, number, 0, 0)
    for number in evaluation.bad:
        yield Conflict(activity.start, 'bad-value', activity.id, number, 0, 0)
    if activity.kind.alternatives and activity.alternative is None:
        yield Conflict(activity.start, 'undetailed', activity.id, 0, 0, 0)
    end = snapshot.end(activity)
    if end is not None and end > snapshot.model.horizon:
        yield Conflict(activity.start, 'overrun', activity.id, 0, end, 0)


def is_open_to_change(world, activity):
    return not world.is_committed(activity) or activity.start > world.now


def of_links(snapshot):
    """Links of firm activities that no other firm activity meets."""
    points = {}
    for activity in snapshot.world.activities.values():
        end = snapshot.end(activity)
        if end is not None:
            points.setdefault((activity.kind.name, 'start'), []).append(activity.start)
            points.setdefault((activity.kind.name, 'end'), []).append(end)
    for moments in points.values():
        moments.sort()
    for activity in snapshot.world.activities.values():
        end = snapshot.end(activity)
        if end is None or not is_open_to_change(snapshot.world, activity):
            continue
        own = {'start': activity.start, 'end': end}
        for number, link in enumerate(activity.kind.links):
            low, high = own[link.mine] + link.low, own[link.mine] + link.high
            moments = points.get((link.kind, link.theirs), [])
            partners = bisect_right(moments, high) - bisect_left(moments, low)
            if link.kind == activity.kind.name and low <= own[link.theirs] <= high:
                partners -= 1            # an activity is no partner of itself
            if partners == 0:
                yield Conflict(activity.start, 'temporal', activity.id, number, 0, 0)


def of_orders(snapshot, parent):
    """Orders of a chosen alternative that two firm activities do not meet."""
    if parent.alternative is None:
        return
    world, alternative = snapshot.world, parent.kind.alternatives[parent.alternative]
    places = {slot.name: child for slot, child in zip(alternative.slots, parent.children)}
    places['parent'] = parent
    for number, order in enumerate(alternative.orders):
        first, second = places[order.first], places[order.second]
        if snapshot.end(first) is None or snapshot.end(second) is None:
            continue
        if not any(is_open_to_change(world, each) for each in (parent, first, second)):
            continue
        distance = point_of(snapshot, second, order.second_point) - point_of(snapshot, first, order.first_point)
        if not order.low <= distance <= order.high:
            yield Conflict(min(parent.start, first.start, second.start), 'link', parent.id, number, 0, 0)


def point_of(snapshot, activity, point):
    return activity.start if point == 'start' else snapshot.end(activity)


def of_timeline(snapshot, line):
    """Spans in which a capacity or level is outside its limits, or a needed state does not hold."""
    now, horizon, profile = snapshot.world.now, snapshot.model.horizon, snapshot.profiles[line.name]
    if line.sort == 'state':
        for need in snapshot.needs[line.name]:
            for a, b in profile.spans(max(need.start, now), min(need.end, horizon), lambda state: state != need.state):
                yield Conflict(need.activity.start, 'must', need.activity.id, need.reservation, a, b)
        return
    high = 'over' if line.sort == 'capacity' else 'high'
    for a, b in profile.spans(now, horizon, lambda value: value > line.most):
        yield Conflict(a, high, line.number, 0, a, b)
    if line.sort == 'level':
        for a, b in profile.spans(now, horizon, lambda value: value < line.least):
            yield Conflict(a, 'low', line.number, 0, a, b)
