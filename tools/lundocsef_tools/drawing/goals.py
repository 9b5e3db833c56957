"""The lane of goals: when an activity is to start for each, and whether one does."""
from ..messages import goal_line
from .canvas import Canvas, width_of
from .style import DIM, DROPPED, INK, OPEN, SERVED, SMALL, WRONG
from .view import Lane, packed

ROWS = 14
COLOURS = {'served': SERVED, 'dropped': DROPPED, 'open': OPEN, 'missed': WRONG}


def state_of(plan, goal):
    """served, dropped, open or missed."""
    return 'missed' if plan.world.is_missed(goal.number) else plan.world.goal_state(goal.number)


def goal_lane(plan, view):
    """A bar for each window, filled for a goal that must be met, hollow for one that may; None where none is in view."""
    items = []
    for goal in plan.world.goals.values():
        if view.shows_name(goal.kind) and view.shows(goal.earliest, goal.latest):
            items.append(extent(plan, view, goal) + (goal,))
    if not items:
        return None
    rows = packed(items)
    labelled = len(rows) <= ROWS
    if not labelled:
        rows = packed([(view.x(goal.earliest), max(view.x(goal.latest), view.x(goal.earliest) + 4) + 1, goal) for _, _, goal in items])
    canvas, shown = Canvas(), rows[:2 * ROWS]
    for number, row in enumerate(shown):
        for goal in row:
            draw_goal(plan, view, canvas, goal, 4 + 13 * number, labelled)
    left_out = sum(len(row) for row in rows[len(shown):])
    return Lane('goals', '%d not shown' % left_out if left_out else 'when to start', 13 * len(shown) + 6, canvas)


def extent(plan, view, goal):
    """How far the bar and its label reach; the label stands at the left where there is no room for it at the right."""
    left, label = view.x(goal.earliest), width_of(label_of(plan, goal), SMALL) + 8
    right = max(view.x(goal.latest), left + 4)
    return (left, right + label) if right + label <= view.width else (left - label, right + 2)


def label_of(plan, goal):
    state = state_of(plan, goal)
    return '%d %s%s' % (goal.number, goal.kind, '' if state == 'served' else ' (%s)' % state)


def draw_goal(plan, view, canvas, goal, y, labelled):
    state, root = state_of(plan, goal), plan.world.serving.get(goal.number)
    colour, left = COLOURS[state], view.x(goal.earliest)
    right = max(view.x(goal.latest), left + 4)
    title = '%s%s\n%s' % (goal_line(goal), view.times(goal.earliest, goal.latest), 'served by #%d' % root.id if root else state)
    canvas.open_group(title, class_='goal')
    canvas.rect(left, y, right - left, 8, colour if goal.must else 'white', stroke=colour, stroke_width=1.2, fill_opacity=0.8,
                stroke_dasharray=None if state != 'dropped' else '2 2')
    if root:
        canvas.line(view.x(root.start), y - 2, view.x(root.start), y + 10, INK, 2)
    if labelled:
        at_left = extent(plan, view, goal)[0] < left
        x, anchor = (left - 4, 'end') if at_left else (right + 4, None)
        canvas.text(x, y + 8, label_of(plan, goal), SMALL, DIM if state == 'served' else colour, anchor,
                    text_decoration='line-through' if state == 'dropped' else None,
                    font_weight='bold' if state in ('open', 'missed') else None)
    canvas.close_group()
