"""Pieces of an SVG drawing."""
from xml.sax.saxutils import escape, quoteattr

from .style import INK, TEXT


def width_of(text, size=TEXT):
    """About how wide a text is; the letters of the font are 0.6 of their size wide, on the average."""
    return len(text) * size * 0.6


def attributes(values):
    """Attributes as SVG writes them, without those that are None; `_` stands for `-`, and is left out at the end."""
    return ''.join(' %s=%s' % (name.rstrip('_').replace('_', '-'), quoteattr(str(value)))
                   for name, value in values.items() if value is not None)


def tidy(number):
    """A coordinate with one decimal at most."""
    return ('%.1f' % number).rstrip('0').rstrip('.')


class Canvas:
    """A list of pieces of SVG, with coordinates of its own from its upper left corner."""

    def __init__(self):
        self.pieces = []

    def add(self, piece):
        self.pieces.append(piece)

    def text_of(self):
        return '\n'.join(self.pieces)

    def rect(self, x, y, width, height, fill, title=None, **more):
        start = '<rect x="%s" y="%s" width="%s" height="%s" fill="%s"%s' % (
            tidy(x), tidy(y), tidy(max(width, 0.8)), tidy(height), fill, attributes(more))
        self.add(start + ('/>' if title is None else '><title>%s</title></rect>' % escape(title)))

    def line(self, x1, y1, x2, y2, stroke, width=1, dash=None):
        self.add('<line x1="%s" y1="%s" x2="%s" y2="%s" stroke="%s" stroke-width="%s"%s/>' % (
            tidy(x1), tidy(y1), tidy(x2), tidy(y2), stroke, width, attributes({'stroke-dasharray': dash})))

    def path(self, steps, title=None, **more):
        start = '<path d="%s"%s' % (steps, attributes(more))
        self.add(start + ('/>' if title is None else '><title>%s</title></path>' % escape(title)))

    def text(self, x, y, text, size=TEXT, fill=INK, anchor=None, **more):
        self.add('<text x="%s" y="%s" font-size="%s" fill="%s"%s>%s</text>' % (
            tidy(x), tidy(y), size, fill, attributes(dict(text_anchor=anchor, **more)), escape(text)))

    def open_group(self, title=None, **more):
        self.add('<g%s>%s' % (attributes(more), '' if title is None else '<title>%s</title>' % escape(title)))

    def close_group(self):
        self.add('</g>')

    def diamond(self, x, y, fill, title=None):
        self.path('M%s %s l4 4 l-4 4 l-4 -4 z' % (tidy(x), tidy(y - 4)), title, fill=fill)

    def warning(self, x, y, fill, size=9, title=None):
        """A triangle with an exclamation mark, its point at x, y."""
        self.path('M%s %s l%s %s h-%s z' % (tidy(x), tidy(y), tidy(size * 0.55), size, tidy(size * 1.1)), title, fill=fill)
        self.text(x, y + size - 1, '!', size - 1.5, 'white', 'middle', font_weight='bold')
