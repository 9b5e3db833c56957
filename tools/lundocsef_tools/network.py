"""The network of an alternative: the starts and ends of its parent and slots, and how far apart they must lie."""
from dataclasses import dataclass


@dataclass(frozen=True)
class Edge:
    """`later` is at most `distance` after `earlier`; `reason` says why."""
    earlier: int
    later: int
    distance: int
    reason: str


def point(places, place, which):
    return 2 * places.index(place) + (which == 'end')


def edges(model, kind, alternative):
    """The edges, over two points for the parent (0, 1) and two for each slot in turn."""
    places = ['parent'] + [slot.name for slot in alternative.slots]
    kinds = [kind] + [model.kind_named[slot.kind] for slot in alternative.slots]
    found = []
    for number in range(1, 2 * len(places)):
        name = '%s of %s' % ('end' if number % 2 else 'start', places[number // 2])
        found.append(Edge(number, 0, 0, 'the %s is not before the start of the parent' % name))
    for place, its_kind in zip(places, kinds):
        least, most = its_kind.durations(model.horizon)
        start, end = point(places, place, 'start'), point(places, place, 'end')
        found.append(Edge(start, end, most, '%s (%s) lasts at most %d' % (place, its_kind.name, most)))
        found.append(Edge(end, start, -least, '%s (%s) lasts at least %d' % (place, its_kind.name, least)))
    for order in alternative.orders:
        first = point(places, order.first, order.first_point)
        second = point(places, order.second, order.second_point)
        found.append(Edge(first, second, order.high, order_reason(order, 'most', order.high)))
        found.append(Edge(second, first, -order.low, order_reason(order, 'least', order.low)))
    return found


def order_reason(order, bound, distance):
    return 'order: the %s of %s at %s %d after the %s of %s' % (
        order.second_point, order.second, bound, distance, order.first_point, order.first)


def earliest_starts(model, kind, alternative):
    """The slots' starts in the earliest times that meet all edges, counted from the parent's start."""
    count = 2 * (len(alternative.slots) + 1)
    times = [0] * count
    bounds_of = edges(model, kind, alternative)
    for _ in range(count):
        for edge in bounds_of:
            # later - earlier <= distance, so the earlier point is at least later - distance
            times[edge.earlier] = max(times[edge.earlier], times[edge.later] - edge.distance)
    return [times[2 * number] for number in range(1, count // 2)]


def impossible_cycle(model, kind, alternative):
    """Edges that cannot hold together, in the order of a cycle; none where all can."""
    count = 2 * (len(alternative.slots) + 1)
    distance, cause, last = [0] * count, {}, None
    all_edges = edges(model, kind, alternative)
    for _ in range(count + 1):
        last = None
        for edge in all_edges:
            if distance[edge.earlier] + edge.distance < distance[edge.later]:
                distance[edge.later] = distance[edge.earlier] + edge.distance
                cause[edge.later] = edge
                last = edge.later
    if last is None:
        return []
    for _ in range(count):
        last = cause[last].earlier
    cycle, here = [], last
    while True:
        cycle.append(cause[here])
        here = cause[here].earlier
        if here == last:
            return cycle[::-1]
