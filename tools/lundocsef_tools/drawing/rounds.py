"""The lane of rounds: at the present moment of each message, a mark that says how repair came to rest."""
from ..readable import readable
from .canvas import Canvas
from .style import INK, OPEN, SERVED, WRONG
from .view import Lane

COLUMN, STEP, TALLEST = 6, 6, 9


def round_lane(plan, view):
    columns = {}
    for each in plan.world.rounds:
        if view.shows(each.now):
            columns.setdefault(round(view.x(each.now) / COLUMN), []).append(each)
    if not columns:
        return None
    tallest = min(TALLEST, max(len(column) for column in columns.values()))
    canvas = Canvas()
    for number, column in columns.items():
        # The last rounds of a moment are those that say how things stand.
        for height, each in enumerate(column[-TALLEST:]):
            draw_round(canvas, each, number * COLUMN, STEP * (tallest - 1 - height) + 3)
    return Lane('rounds', 'repairs of a message', STEP * tallest + 6, canvas)


def draw_round(canvas, each, x, y):
    canvas.open_group(title_of(each), class_='round')
    fixes = sum(each.fixes.values())
    if each.rest == 'stuck':
        canvas.path('M%s %s l3 3 l-3 3 l-3 -3 z' % (x + 2.5, y - 0.5), fill=WRONG)
    elif each.rest == 'spent':
        canvas.rect(x, y, 5, 5, OPEN)
    else:
        canvas.rect(x + 0.5, y + 0.5, 4, 4, '#cfe3cf' if fixes else 'white', stroke=SERVED, stroke_width=0.9)
    if each.reply != 'ok':
        canvas.line(x - 0.5, y + 5.5, x + 5.5, y - 0.5, INK, 1.4)
    canvas.close_group()


def title_of(each):
    fixes = sum(each.fixes.values())
    text = '%s\nanswered %s at %d; %d repair%s' % (readable(each.message), each.reply, each.now, fixes, 's' * (fixes != 1))
    if each.fixes:
        text += ' (%s)' % ', '.join('%d of %s' % (count, code) for code, count in each.fixes.items())
    text += ', then repair rested: %s' % each.rest if each.rest else ''
    return text + (', committed to %d' % each.committed if each.committed is not None else '')
