"""A lane for each kind of activity that no other contains, with what such activities contain below them."""
from ..sentences import activity_text, standing
from .canvas import Canvas, width_of
from .style import BAR, DIM, INK, ROW, SMALL, WRONG, full, pale
from .view import Lane, packed

LABELLED_ROWS, ROWS = 6, 12       # rows of one depth with labels beside the bars; rows without, the rest is left out


def activity_lanes(plan, view):
    roots = {}
    for activity in plan.world.activities.values():
        if activity.parent is None and view.shows_name(activity.kind.name) and view.shows(activity.start, last_moment(plan, activity)):
            roots.setdefault(activity.kind.name, []).append(activity)
    return [lane_of(plan, view, kind, roots[kind.name]) for kind in plan.model.kinds if kind.name in roots]


def last_moment(plan, activity):
    end = plan.snapshot.end(activity)
    return activity.start if end is None else end


def lane_of(plan, view, kind, roots):
    canvas, row_number, left_out = Canvas(), 0, 0
    for activities in by_depth(view, roots):
        rows = packed([extent(plan, view, each, True) for each in activities])
        if len(rows) > LABELLED_ROWS:
            rows = packed([extent(plan, view, each, False) for each in activities])
        left_out += sum(len(row) for row in rows[ROWS:])
        for row in rows[:ROWS]:
            draw_row(plan, view, canvas, row, 2 + ROW * row_number)
            row_number += 1
    return Lane(kind.name, note_of(roots, left_out), ROW * row_number + 3, canvas)


def note_of(roots, left_out):
    added = sum(root.goal is None for root in roots)
    note = '%d' % len(roots) if not added else '%d, %d by repair' % (len(roots), added)
    return note + ('\n%d not shown' % left_out if left_out else '')


def by_depth(view, roots):
    """The activities of each depth: the roots, then what they contain, and so on."""
    layer = roots
    while layer:
        shown = [each for each in layer if view.shows_name(each.kind.name)]
        if shown:
            yield shown
        layer = [child for each in layer for child in each.children]


def extent(plan, view, activity, labelled):
    left = view.x(activity.start)
    right = max(view.x(last_moment(plan, activity)), left + 3)
    label = width_of(short_label(activity), SMALL) + 6
    return left, right + (1 if not labelled or label <= right - left else label), activity


def short_label(activity):
    return '#%d' % activity.id if activity.parent is None else activity.kind.name


def labels_of(plan, activity):
    """What may stand in or beside a bar, the longest first."""
    values = plan.snapshot.evaluations[activity.id].text()
    short = short_label(activity)
    return ['%s %s' % (short, values), short] if values else [short]


def draw_row(plan, view, canvas, row, y):
    for number, activity in enumerate(row):
        following = view.x(row[number + 1].start) if number + 1 < len(row) else view.width
        draw_bar(plan, view, canvas, activity, y, following)


def draw_bar(plan, view, canvas, activity, y, following):
    left = view.x(activity.start)
    right = max(view.x(last_moment(plan, activity)), left + 3)
    far, wrong = standing(plan, activity), activity.id in plan.wrong
    number = activity.kind.number
    fill = {'sent': full(number), 'committed': pale(number), 'planned': 'white'}[far]
    title = activity_text(plan, activity, view.times(activity.start, last_moment(plan, activity)))
    canvas.open_group(title, class_='activity', data_id=activity.id if view.pointed else None)
    canvas.rect(left, y, right - left, BAR, fill, stroke=WRONG if wrong else full(number), stroke_width=2.4 if wrong else 1.1,
                stroke_dasharray='3 2' if far == 'planned' and not wrong else None, rx=1.5)
    if activity.goal is None and activity.parent is None:
        canvas.line(left, y + BAR + 2, right, y + BAR + 2, INK, 1.6, '2 2')
    if wrong:
        canvas.warning(left, y - 1, WRONG, 9)
    draw_label(plan, canvas, activity, y, (left + (6 if wrong else 0), right, following), 'white' if far == 'sent' else INK)
    canvas.close_group()


def draw_label(plan, canvas, activity, y, room, inside):
    """The longest label with room in the bar; else the longest with room between the bar and the next one."""
    left, right, following = room
    for label in labels_of(plan, activity):
        if width_of(label, SMALL) + 6 <= right - left:
            canvas.text(left + 3, y + BAR - 2.5, label, SMALL, inside)
            return
    for label in labels_of(plan, activity):
        if right + width_of(label, SMALL) + 6 <= following:
            canvas.text(right + 3, y + BAR - 2.5, label, SMALL, DIM)
            return
