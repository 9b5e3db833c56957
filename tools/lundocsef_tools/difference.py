"""Two plans side by side."""
from collections import Counter
from itertools import zip_longest

WIDTH = 38


def side_by_side(name, left, right, width=WIDTH):
    mark = ' ' if left == right else '|'
    return ('%-22s %-*s %s %s' % (name[:22], width, left, mark, right)).rstrip()


def compare_reports(first, second, names):
    """Lines that show where two reports differ."""
    lines = [side_by_side('', names[0][-WIDTH:], names[1][-WIDTH:]).replace(' | ', '   ')]
    lines += [side_by_side(name, str(number(first)), str(number(second))) for name, number in NUMBERS]
    for title, found in (('goals that differ', goals(first, second)), ('activities that differ', activities(first, second)),
                         ('conflicts of each code, where their numbers differ', conflicts(first, second)),
                         ('commands of each kind, where their numbers differ', commands(first, second))):
        if found:
            lines += ['', title + ':'] + found
    if len(lines) == 1 + len(NUMBERS):
        lines += ['', 'The two plans are the same.']
    return lines


NUMBERS = (
    ('entries', lambda report: report.entries),
    ('now', lambda report: report.now),
    ('committed', lambda report: report.committed),
    ('goals', lambda report: len(report.goals)),
    ('  served', lambda report: len(report.goals_that_are('served'))),
    ('  open or missed', lambda report: len(report.goals_that_are('open'))),
    ('  dropped', lambda report: len(report.goals_that_are('dropped'))),
    ('activities', lambda report: len(report.activities)),
    ('conflicts', lambda report: len(report.conflicts)),
    ('commands', lambda report: report.dispatched),
)


def goals(first, second):
    """A line for each goal that is in one alone, or ends in another way, or is served at another moment."""
    left, right = {goal.number: goal for goal in first.goals}, {goal.number: goal for goal in second.goals}
    starts = [{each.id: each.start for each in report.activities} for report in (first, second)]
    lines = []
    for number in sorted(set(left) | set(right)):
        told = [goal_words(side.get(number), start) for side, start in zip((left, right), starts)]
        if told[0] != told[1]:
            goal = left.get(number) or right[number]
            lines.append(side_by_side('  %d %s' % (number, goal.kind), *told))
    return lines


def goal_words(goal, starts):
    if goal is None:
        return '(not there)'
    return 'served at %d' % starts[goal.by] if goal.state == 'served' else goal.state


def counted(keys_of, first, second):
    """What one report has more often than the other, as (key, how often left, how often right)."""
    left, right = Counter(keys_of(first)), Counter(keys_of(second))
    return [(key, left[key], right[key]) for key in sorted(set(left) | set(right), key=str) if left[key] != right[key]]


def activities(first, second):
    """Activities by kind, with the starts that one plan alone has."""
    differing = {}
    for (kind, start, end), left, right in counted(activity_keys, first, second):
        sides = differing.setdefault(kind, ([], []))
        text = '%d to %s' % (start, '-' if end is None else end)
        sides[0].extend([(start, text)] * max(0, left - right))
        sides[1].extend([(start, text)] * max(0, right - left))
    lines = []
    for kind, sides in sorted(differing.items()):
        texts = [[text for _, text in sorted(side)] for side in sides]
        for number, (left, right) in enumerate(zip_longest(*texts, fillvalue='')):
            lines.append(side_by_side('' if number else '  ' + kind, left, right))
    return lines


def activity_keys(report):
    return [(each.kind, each.start, each.end) for each in report.activities]


def conflicts(first, second):
    """How many conflicts of each code."""
    found = counted(lambda report: [each.code for each in report.conflicts], first, second)
    return [side_by_side('  ' + code, str(left), str(right)) for code, left, right in found]


def commands(first, second):
    """How many commands of each kind, where the numbers differ."""
    found = counted(lambda report: [each.kind for each in report.commands], first, second)
    return [side_by_side('  ' + kind, str(left), str(right)) for kind, left, right in found]
