"""Options that several commands share."""
import argparse

from .clock import Clock
from .drawing.view import View, default_range
from .failure import Failure
from .program import add_program_option


def parser_of(name, description, epilog=None):
    return argparse.ArgumentParser(prog=name, description=description, epilog=epilog, formatter_class=argparse.RawDescriptionHelpFormatter)


def add_plan_arguments(parser):
    parser.add_argument('model', metavar='MODEL',
                        help='a file with the model; where it is the only file, a line `begin` and the journal follow the model in it')
    parser.add_argument('journal', metavar='JOURNAL', nargs='?', help='a file with the journal (`-`: standard input)')
    add_program_option(parser)


def paths_of(arguments):
    return [path for path in (arguments.model, arguments.journal) if path is not None]


def add_view_arguments(parser):
    parser.add_argument('--from', dest='first', type=int, metavar='MOMENT', help='the first moment of the drawing (default: 0)')
    parser.add_argument('--to', dest='last', type=int, metavar='MOMENT',
                        help='the last one (default: a little behind the last thing that happens)')
    parser.add_argument('--width', type=int, default=1200, metavar='PIXELS', help='the width of the drawing (default: 1200)')
    parser.add_argument('--hide', default='', metavar='NAMES',
                        help='kinds and timelines that are not drawn, separated by commas; they count all the same')
    parser.add_argument('--title', default='', help='the title (default: the first comment of the model)')
    add_clock_arguments(parser)


def add_clock_arguments(parser):
    parser.add_argument('--moment', type=float, default=0, metavar='SECONDS', help='how long a moment is; clock times are shown then')
    parser.add_argument('--epoch', default='00:00', metavar='TIME', help='the time of moment 0: 06:00, or 2026-11-29T06:00:00Z')


def clock_of(arguments):
    if arguments.moment < 0:
        raise Failure('a moment lasts a positive number of seconds')
    return Clock(arguments.moment, arguments.epoch)


def view_of(arguments, plan, default=None):
    """The part of the plan that the options ask for; `default` is the range where they name none."""
    hidden = set(filter(None, arguments.hide.split(',')))
    unknown = hidden - set(plan.model.kind_named) - set(plan.model.timeline_named)
    if unknown:
        raise Failure('the model has no kind or timeline %s' % ', '.join(sorted(unknown)))
    first, last = default or default_range(plan, hidden)
    first = first if arguments.first is None else arguments.first
    last = last if arguments.last is None else arguments.last
    if first < 0 or last <= first:
        raise Failure('the drawing would go from %d to %d; it has to begin at 0 or later and to end after that' % (first, last))
    if arguments.width < 400:
        raise Failure('a drawing is at least 400 pixels wide')
    return View(first, last, arguments.width, clock_of(arguments), arguments.title, hidden)
