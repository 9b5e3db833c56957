"""What the signs of the picture mean."""
from .canvas import Canvas, tidy, width_of
from .style import BAR, DIM, DROPPED, INK, OPEN, SERVED, SMALL, TOLD, WRONG, full, pale

LINE = 17


def box(fill, stroke, **more):
    def draw(canvas, x, y):
        canvas.rect(x, y - 9, 16, BAR - 1, fill, stroke=stroke, **more)
    return draw


def window(fill, stroke, tick=False, **more):
    def draw(canvas, x, y):
        canvas.rect(x, y - 8, 16, 8, fill, stroke=stroke, stroke_width=1.2, **more)
        if tick:
            canvas.line(x + 5, y - 10, x + 5, y + 2, INK, 2)
    return draw


def dots(canvas, x, y):
    canvas.line(x, y - 2, x + 16, y - 2, INK, 1.6, '2 2')


def small_square(fill, stroke):
    def draw(canvas, x, y):
        canvas.rect(x + 6, y - 6.5, 5, 5, fill, stroke=stroke, stroke_width=0.9)
    return draw


def small_diamond(canvas, x, y):
    canvas.path('M%s %s l3 3 l-3 3 l-3 -3 z' % (tidy(x + 8), tidy(y - 7)), fill=WRONG)


def stroke_through(canvas, x, y):
    small_square('white', SERVED)(canvas, x, y)
    canvas.line(x + 5, y - 1, x + 12, y - 8, INK, 1.4)


SIGNS = (
    (box(full(0), full(0)), 'command sent'),
    (box(pale(0), full(0)), 'committed'),
    (box('white', full(0), stroke_dasharray='3 2'), 'planned'),
    (lambda canvas, x, y: canvas.warning(x + 8, y - 9, WRONG, 10), 'something is wrong'),
    (dots, 'added by a repair, for no goal'),
    (window(SERVED, SERVED, True), 'goal that must be met, and the start that serves it'),
    (window('white', SERVED, True), 'goal that may be met'),
    (window('white', DROPPED, stroke_dasharray='2 2'), 'dropped'),
    (window(OPEN, OPEN), 'open'),
    (window(WRONG, WRONG), 'missed'),
    (lambda canvas, x, y: canvas.diamond(x + 8, y - 4, TOLD), 'telemetry (and how far the plan was off)'),
    (lambda canvas, x, y: canvas.rect(x, y - 9, 16, 10, 'none', stroke='#000'), 'an activity needs this state'),
    (lambda canvas, x, y: canvas.rect(x, y - 9, 16, 10, 'url(#wrong)', stroke=WRONG), 'outside its limits, or not the state that is needed'),
    (small_square('#cfe3cf', SERVED), 'round: nothing is wrong any more'),
    (small_square(OPEN, OPEN), 'its repairs are spent'),
    (small_diamond, 'no repair is possible'),
    (stroke_through, 'message refused'),
)


def draw_legend(view):
    canvas, x, y = Canvas(), 12, 14
    for draw, label in SIGNS:
        wide = 20 + width_of(label, SMALL) + 14
        if x + wide > view.width:
            x, y = 12, y + LINE
        draw(canvas, x, y)
        canvas.text(x + 20, y, label, SMALL, DIM)
        x += wide
    return canvas, y + 10
