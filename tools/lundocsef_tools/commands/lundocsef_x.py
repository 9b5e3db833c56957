"""lundocsef-x: the program with file arguments."""
import hashlib
import os
import subprocess
import sys
import threading

from .. import program
from ..failure import Failure
from ..model_reader import split_at_begin
from ..options import parser_of
from ..plan import read_text

VERSION = '1'
COMPLETION = os.path.join(program.REPOSITORY, 'tools', 'completion')
DESCRIPTION = """Calls the planner's program with files in place of standard input, and ends with its status.
It calls this program alone, and writes what it writes."""
EXAMPLES = """examples:
  lundocsef-x check examples/camera.txt
  lundocsef-x run examples/camera.txt > camera.journal
  lundocsef-x run --turns 4 --seed 7 model.txt messages.txt
  lundocsef-x run --seed 7 --planners 2 model.txt messages.txt
  console | lundocsef-x run model.txt - | plan-live model.txt
  lundocsef-x replay examples/camera.txt examples/camera.journal
  lundocsef-x report examples/camera.txt examples/camera.journal
  lundocsef-x flex 3 examples/camera.txt examples/camera.journal
  lundocsef-x forecast rates.txt model.txt day.journal
  lundocsef-x improve 20 wishes.txt model.txt day.journal
  lundocsef-x --completion bash > ~/.local/share/bash-completion/completions/lundocsef-x

status: that of the program (2: its words, 3: the model, 4: reading, 5: writing, 6: too long, 7: the journal is full,
  8: the journal is not legal, 9: memory), or 1 where a file or the program is missing.
"""
BEHIND = {
    'run': 'the messages: a file, or `-` for standard input, line by line as they come (default: what stands behind `begin` in MODEL)',
    'replay': 'the journal: a file or `-` (default: what stands behind `begin` in MODEL)',
    'report': 'the journal: a file or `-` (default: what stands behind `begin` in MODEL)',
    'flex': 'the journal: a file or `-` (default: what stands behind `begin` in MODEL)',
    'forecast': 'the journal: a file or `-` (default: what stands behind `begin` in MODEL)',
    'improve': 'the journal: a file or `-` (default: what stands behind `begin` in MODEL)',
}
HELP = {
    'run': 'plan, and write the journal', 'check': 'say whether a text is a model, or its first fault',
    'replay': 'say whether a journal is legal, or its first wrong entry', 'report': 'write the plan behind a journal',
    'demo': 'plan N built-in goals',
    'flex': 'say how far each activity behind a journal can move, and what keeps one of them there',
    'forecast': 'say where levels leave their limits by rates, behind a journal',
    'improve': 'say how single steps better the plan behind a journal by what is preferred',
}


def main(arguments):
    parser = make_parser()
    given = parser.parse_args(arguments)
    if given.completion:
        return print_completion(given.completion)
    if given.version:
        return print_version(program.find_program(given.program))
    if given.command is None:
        parser.print_help()
        return 2
    path = program.find_program(given.program)
    status = run(path, words_of(given), feeder_of(given))
    if status not in (0, 1):
        advice = '; `model-look %s` shows the place and the cause' % given.model if status == 3 else ''
        meaning = program.STATUSES.get(status, 'it was stopped')
        sys.stderr.write('lundocsef-x: the program ended with status %d: %s%s\n' % (status, meaning, advice))
    return status


def make_parser():
    parser = parser_of('lundocsef-x', DESCRIPTION, EXAMPLES)
    parser.add_argument('--version', action='store_true', help='say which program is called')
    parser.add_argument('--completion', choices=('bash', 'zsh'), help='write the completion for this shell')
    program.add_program_option(parser)
    commands = parser.add_subparsers(dest='command', metavar='COMMAND')
    for name, text in HELP.items():
        command = commands.add_parser(name, help=text, description=text[0].upper() + text[1:] + '.')
        if name == 'demo':
            command.add_argument('count', metavar='N', type=int, help='how many goals, 1 to 4000')
            continue
        if name == 'flex':
            command.add_argument('id', metavar='ID', type=int, help='the number of the activity whose limits are written')
        if name == 'forecast':
            command.add_argument('before', metavar='RATES', help='a file with lines of rates and drifts')
        if name == 'improve':
            command.add_argument('steps', metavar='N', type=int, help='the most steps, 1 to 1000')
            command.add_argument('before', metavar='PREFERENCES', help='a file with lines of preferences')
        command.add_argument('model', metavar='MODEL', help='a file with the model')
        if name in BEHIND:
            command.add_argument('behind', metavar='MESSAGES' if name == 'run' else 'JOURNAL', nargs='?', help=BEHIND[name])
        if name == 'run':
            command.add_argument('--turns', type=int, default=8, metavar='N',
                                 help='the most repairs for a message, 1 to 1000 (default: 8; more is seldom better)')
            command.add_argument('--seed', type=int, metavar='S', help='plan with two threads and a chooser that draws from this seed')
            command.add_argument('--planners', type=int, metavar='P', help='plan with P planners, 2 to 8, each in a thread of its own, and their choosers '
                                 'draw from the seed (default: 1) and their numbers')
    return parser


def words_of(given):
    """The words that the program takes."""
    if given.command == 'demo':
        return ['demo', str(given.count)]
    if given.command == 'flex':
        return ['flex', str(given.id)]
    if given.command == 'improve':
        return ['improve', str(given.steps)]
    if given.command == 'run':
        return words_of_run(str(given.turns), given.seed, given.planners)
    return [given.command]


def words_of_run(turns, seed, planners):
    if planners is not None:
        return ['run', 'crew', turns, str(planners), str(1 if seed is None else seed)]
    return ['run', 'solo', turns] if seed is None else ['run', 'pair', turns, str(seed)]


def feeder_of(given):
    """A function that writes the program's input to a stream."""
    if given.command == 'demo':
        return lambda stream: None
    text = read_text(given.model)
    model, lines = split_at_begin(text)
    behind = getattr(given, 'behind', None)
    before = lines_before(given.before) if given.command in ('forecast', 'improve') else ''
    if behind is None and before:
        whole = with_begin(model) + before + ''.join(line + '\n' for line in lines or [])
        return lambda stream: stream.write(whole.encode('latin-1'))
    if behind is None:
        # `check` wants a model alone; the others want all of the file, and say what they miss.
        whole = text if lines is not None or given.command != 'check' else with_begin(model)
        return lambda stream: stream.write(whole.encode('latin-1'))
    source = open_source(behind)

    def feed(stream):
        stream.write((with_begin(model) + before).encode('latin-1'))
        stream.flush()
        for data in iter(lambda: os.read(source.fileno(), 65536), b''):
            stream.write(data)
            stream.flush()
    return feed


def with_begin(model):
    return ended(model) + 'begin\n'


def lines_before(path):
    """The lines of rates or preferences, and the line behind them."""
    return ended(read_text(path)) + 'journal\n'


def ended(text):
    return text + ('' if not text or text.endswith('\n') else '\n')


def open_source(path):
    try:
        return sys.stdin.buffer if path == '-' else open(path, 'rb')
    except OSError as error:
        raise Failure('%s cannot be read: %s' % (path, error.strerror))


def run(path, words, feed):
    """Runs the program with its own standard output, and feeds it; returns its status."""
    sys.stdout.flush()
    try:
        child = subprocess.Popen([path] + words, stdin=subprocess.PIPE)
    except OSError as error:
        raise Failure('%s cannot be run: %s' % (path, error.strerror))

    def feed_and_close():
        try:
            feed(child.stdin)
            child.stdin.close()
        except (BrokenPipeError, ValueError):
            pass            # the program has ended before it had read everything

    # A thread of its own, so that the program's end is seen while the next message is waited for.
    threading.Thread(target=feed_and_close, daemon=True).start()
    status = child.wait()
    return status if status >= 0 else 128 - status


def print_version(path):
    with open(path, 'rb') as file:
        digest = hashlib.sha256(file.read()).hexdigest()
    print('lundocsef-x %s\nprogram %s\nsha256 %s' % (VERSION, path, digest))
    return 0


def print_completion(shell):
    with open(os.path.join(COMPLETION, 'lundocsef-x.%s' % shell), encoding='utf-8') as file:
        sys.stdout.write(file.read())
    return 0
