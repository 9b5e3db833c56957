"""plan-live: the plan in a terminal, redrawn as the journal comes."""
import shutil
import sys
import time

from .. import program
from ..drawing.view import View, default_range
from ..failure import Failure
from ..journal import is_blank, read_entry
from ..model_reader import read_model, split_at_begin
from ..options import add_clock_arguments, clock_of, parser_of
from ..plan import Source, plan_of_world, read_text, verdict
from ..readable import readable
from ..terminal import terminal
from ..world import World

DESCRIPTION = """Reads a journal from standard input as the planner writes it, and draws the plan at the end of each round.
When the journal ends, the program checks it."""
EXAMPLES = """examples:
  lundocsef-x run --turns 8 camera.txt | plan-live camera.txt --pause 0.5
  console | lundocsef-x run model.txt - | plan-live model.txt --window 600 --keep day.journal
"""
CLEAR = '\033[H\033[2J'


def main(arguments):
    parser = parser_of('plan-live', DESCRIPTION, EXAMPLES)
    parser.add_argument('model', metavar='MODEL', help='a file with the model; what stands behind its line `begin` is not read')
    program.add_program_option(parser)
    parser.add_argument('--columns', type=int, help='the columns of the terminal (default: those that it has)')
    parser.add_argument('--window', type=int, metavar='MOMENTS',
                        help='draw so many moments, a quarter of them past (default: all that happens)')
    parser.add_argument('--pause', type=float, default=0, metavar='SECONDS', help='wait after each drawing')
    parser.add_argument('--latest', action='store_true', help='where several rounds come at once, draw the plan behind the last alone')
    parser.add_argument('--keep', metavar='FILE', help='write the journal to this file as it comes')
    parser.add_argument('--no-check', action='store_true', help='do not let the program check the journal at its end')
    parser.add_argument('--hide', default='', metavar='NAMES', help='kinds and timelines that are not drawn, separated by commas')
    add_clock_arguments(parser)
    given = parser.parse_args(arguments)
    model_text, _ = split_at_begin(read_text(given.model))
    live = Live(given, model_text)
    try:
        live.follow(sys.stdin.buffer)
    except Failure as failure:
        raise Failure('%s. %s' % (failure, live.check_failed()))
    finally:
        live.close()
    if not given.no_check:
        verdict(program.find_program(given.program), live.source())
    return 0


def batches(stream):
    """The lines of a stream, those that come at once together."""
    rest = b''
    for data in iter(lambda: stream.read1(65536), b''):
        *lines, rest = (rest + data).split(b'\n')
        yield [line + b'\n' for line in lines]
    if rest:
        yield [rest]


class Live:
    """The world behind the lines that have come, and the drawing of it."""

    def __init__(self, given, model_text):
        self.given, self.model_text = given, model_text
        self.world = World(read_model(model_text))
        self.lines = []
        self.hidden = set(filter(None, given.hide.split(',')))
        self.kept = self.open_kept()

    def open_kept(self):
        try:
            return open(self.given.keep, 'wb') if self.given.keep else None
        except OSError as error:
            raise Failure('%s cannot be written: %s' % (self.given.keep, error.strerror))

    def close(self):
        if self.kept:
            self.kept.close()

    def source(self):
        return Source(self.model_text, self.lines, 'standard input')

    def follow(self, stream):
        for lines in batches(stream):
            closed = [self.take(line) for line in lines]
            if self.given.latest and any(closed):
                self.draw()
        if not self.lines:
            raise Failure('standard input holds no journal')

    def take(self, data):
        """Takes a line, and draws the plan where a round closes with it; returns whether one does."""
        if self.kept:
            self.kept.write(data)
            self.kept.flush()
        line = data.decode('latin-1').rstrip('\n')
        if is_blank(line):
            return False
        self.lines.append(line)
        if line.startswith(('model:', 'usage:')):
            raise Failure('the planner writes no journal, it says: %s' % line)
        self.world.apply(read_entry(line))
        closed = line.endswith(' close')
        if closed and not self.given.latest:
            self.draw()
        return closed

    def draw(self):
        plan = plan_of_world(self.world, self.lines)
        first, last = default_range(plan, self.hidden)
        if self.given.window:
            first = max(0, self.world.now - self.given.window // 4)
            last = min(self.world.model.horizon, first + self.given.window)
        view = View(first, max(last, first + 1), clock=clock_of(self.given), hidden=self.hidden)
        columns = self.given.columns or shutil.get_terminal_size().columns
        message = self.world.rounds[-1]
        before = CLEAR if sys.stdout.isatty() else '\n'
        head = '%sentry %d, %s: %s\n' % (before, len(self.lines) - 1, message.reply, readable(message.message))
        sys.stdout.write(head + terminal(plan, view, columns))
        sys.stdout.flush()
        time.sleep(self.given.pause)

    def check_failed(self):
        """What the program says of the lines up to the one that could not be read."""
        try:
            verdict(program.find_program(self.given.program), self.source())
        except Failure as failure:
            return str(failure)
        return 'The program takes these lines for a legal journal; please report this'
