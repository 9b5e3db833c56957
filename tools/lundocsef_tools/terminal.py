"""A plan in letters, for a terminal."""
from .drawing.goals import state_of
from .drawing.picture import summary
from .drawing.view import packed, round_step
from .sentences import sentence, standing

LABEL = 22                # the width of the column of names
BLOCKS = ' ▁▂▃▄▅▆▇█'
MARKS = {'sent': '#', 'committed': '+', 'planned': 'o'}
GOALS = {'served': '=', 'open': '?', 'missed': 'x', 'dropped': '-'}
LEGEND = ('activities: # sent  + committed  o planned  ! wrong   goals: = served  ? open  x missed  - dropped   '
          'timelines: * telemetry  ! outside its limits')


class Columns:
    """Which moments each column of letters stands for."""

    def __init__(self, view, columns):
        self.view = view
        self.count = max(20, columns - LABEL - 1)

    def column(self, moment):
        inside = min(max(moment, self.view.first), self.view.last)
        return min(self.count - 1, (inside - self.view.first) * self.count // (self.view.last - self.view.first))

    def moments(self, column):
        """The first moment of a column and the first one behind it."""
        span = self.view.last - self.view.first
        first = self.view.first + -(-column * span // self.count)
        return first, max(first + 1, self.view.first + -(-(column + 1) * span // self.count))

    def blank(self, letter=' '):
        return [letter] * self.count


def row(name, letters):
    return ('%-*s %s' % (LABEL, name[:LABEL], ''.join(letters))).rstrip()


def terminal(plan, view, columns=100):
    """The picture, in lines of at most so many columns."""
    grid = Columns(view, columns)
    lines = [view.title or plan.model.title or 'A plan', summary(plan).split(' · rounds')[0]]
    lines += ruler(plan, view, grid)
    lines += goal_rows(plan, view, grid)
    lines += activity_rows(plan, view, grid)
    lines += [timeline_row(plan, view, grid, line) for line in plan.model.timelines if view.shows_name(line.name)]
    lines += wrap(LEGEND, max(60, columns))
    lines += ['from %d: %s' % (conflict.moment, sentence(plan, conflict)) for conflict in plan.conflicts[:8]]
    if len(plan.conflicts) > 8:
        lines.append('and %d more conflicts' % (len(plan.conflicts) - 8))
    return ''.join(line + '\n' for line in lines)


def wrap(text, columns):
    lines = ['']
    for part in text.split('   '):
        if lines[-1] and len(lines[-1]) + 3 + len(part) > columns:
            lines.append(part)
        else:
            lines[-1] += ('   ' if lines[-1] else '') + part
    return lines


def ruler(plan, view, grid):
    """Moments or clock times, and below them what is past and what is committed."""
    if view.clock:
        moments, seconds = view.clock.ticks(view.first, view.last, grid.count / 10)
        labels = [(moment, view.clock.label(moment, seconds)) for moment in moments]
    else:
        step = round_step(view.last - view.first, grid.count / 10)
        labels = [(moment, str(moment)) for moment in range(-(-view.first // step) * step, view.last, step)]
    scale = grid.blank()
    for moment, label in labels:
        at = grid.column(moment)
        if at + len(label) <= grid.count:
            scale[at:at + len(label)] = label
    now, committed = plan.world.now, plan.world.committed
    times = grid.blank('.')
    for at in range(grid.count):
        first, _ = grid.moments(at)
        times[at] = '=' if first < now else '-' if first < committed else '.'
    if view.shows(committed):
        times[grid.column(committed)] = 'C' if committed > now else '!'
    if view.shows(now):
        times[grid.column(now)] = 'N'
    return [row('', scale), row('now N, committed to C', times)]


def goal_rows(plan, view, grid):
    items = []
    for goal in plan.world.goals.values():
        if view.shows_name(goal.kind) and view.shows(goal.earliest, goal.latest):
            left, right = grid.column(goal.earliest), grid.column(goal.latest) + 1
            items.append((left, max(right, left + len(str(goal.number)) + 1) + 1, goal))
    rows = []
    for number, goals in enumerate(packed(items)[:8]):
        letters = grid.blank()
        for goal in goals:
            left, right = grid.column(goal.earliest), grid.column(goal.latest) + 1
            letters[left:right] = GOALS[state_of(plan, goal)] * (right - left)
            label = str(goal.number)
            if left + len(label) < grid.count:
                letters[left + 1:left + 1 + len(label)] = label
        rows.append(row('' if number else 'goals', letters[:grid.count]))
    return rows


def activity_rows(plan, view, grid):
    roots = [each for each in plan.world.activities.values() if each.parent is None]
    return tree_rows(plan, view, grid, roots, 0)


def tree_rows(plan, view, grid, activities, depth):
    """Rows for each kind of these activities, and below them what they contain."""
    rows = []
    for kind in plan.model.kinds:
        these = [each for each in activities if each.kind is kind]
        if not these or not view.shows_name(kind.name):
            continue
        seen = [each for each in these if view.shows(each.start, plan.snapshot.end(each) or each.start)]
        rows += kind_rows(plan, grid, '  ' * depth + kind.name, seen)
        rows += tree_rows(plan, view, grid, [child for each in these for child in each.children], depth + 1)
    return rows


def kind_rows(plan, grid, name, activities):
    items = []
    for each in activities:
        left = grid.column(each.start)
        right = max(left + 1, grid.column((plan.snapshot.end(each) or each.start + 1) - 1) + 1)
        items.append((left, right, (left, right, each)))
    rows = []
    for number, bars in enumerate(packed(items)[:6]):
        letters = grid.blank()
        for left, right, each in bars:
            mark = '!' if each.id in plan.wrong else MARKS[standing(plan, each)]
            letters[left:right] = mark * (right - left)
            label = str(each.id)
            if len(label) < right - left:
                letters[left + 1:left + 1 + len(label)] = label
        rows.append(row('' if number else name, letters))
    return rows


def timeline_row(plan, view, grid, line):
    profile, letters = plan.snapshot.profiles[line.name], grid.blank()
    values = [value for _, _, value in profile.pieces(view.first, view.last)]
    for at in range(grid.count):
        first, behind = grid.moments(at)
        seen = [value for _, _, value in profile.pieces(first, behind)]
        letters[at] = initial(line, seen[0]) if line.sort == 'state' else block(line, seen, values)
    for mark in profile.marks:
        if view.shows(mark.moment):
            letters[grid.column(mark.moment)] = '*'
    name = line.name if line.sort != 'state' else '%s (%s)' % (line.name, ' '.join(initial(line, state) for state in line.states))
    return row(name if len(name) <= LABEL else line.name, letters)


def initial(line, state):
    """A letter that tells a state from the others of its timeline, the first that is not taken."""
    letters = {}
    for each in line.states:
        free = [letter for letter in each + each.upper() + '0123456789' if letter not in letters.values()]
        letters[each] = free[0] if free else '?'
    return letters[state]


def block(line, seen, values):
    least = getattr(line, 'least', 0)
    if min(seen) < least or max(seen) > line.most:
        return '!'
    bottom, top = min(values + [0]), max(values + [1])
    if line.most <= 2 * top:
        top = max(top, line.most)
    share = (max(seen) - bottom) / (top - bottom)
    return BLOCKS[0 if max(seen) == bottom else max(1, min(8, round(8 * share)))]
