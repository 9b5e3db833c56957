"""Where the planner's program stands, and how it is called."""
import os
import subprocess

from .failure import Failure

REPOSITORY = os.path.dirname(os.path.dirname(os.path.dirname(os.path.abspath(__file__))))
BUILT = os.path.join(REPOSITORY, 'crates', 'lundocsef', 'out', 'lundocsef')
LOOKAHEAD = os.path.join(REPOSITORY, 'crates', 'lookahead', 'out', 'lookahead')
STATUSES = {
    2: 'the words of the command line have no form that it knows',
    3: 'the model is missing or wrong',
    4: 'reading failed',
    5: 'writing failed',
    6: 'a line or the input is too long',
    7: 'the journal is full: it has as many entries as it may have, and one more was due',
    8: 'the journal is not legal',
    9: 'it had too little memory',
}


def add_program_option(parser):
    parser.add_argument('--program', metavar='PATH', help='the planner (default: $LUNDOCSEF, else crates/lundocsef/out/lundocsef of this repository)')


def find_program(given=None):
    """The program's path: the one given, else $LUNDOCSEF, else the one that the repository's build leaves."""
    for path, source in ((given, '--program'), (os.environ.get('LUNDOCSEF'), '$LUNDOCSEF')):
        if path:
            if os.path.isfile(path) and os.access(path, os.X_OK):
                return path
            raise Failure('%s names %s, and that is no program that can be run' % (source, path))
    if os.access(BUILT, os.X_OK):
        return BUILT
    raise Failure('the planner was not found. Name it by --program PATH or by the variable LUNDOCSEF, '
                  'or build it: cd %s && rt run' % os.path.dirname(os.path.dirname(BUILT)))


def find_lookahead():
    """The path of the planner that looks ahead: $LOOKAHEAD, else the one that the repository's build leaves, else None."""
    for path in (os.environ.get('LOOKAHEAD'), LOOKAHEAD):
        if path and os.access(path, os.X_OK):
            return path
    return None


def call(program, words, text):
    """Calls the program with this input; returns its status and what it wrote. Both texts hold one byte a character."""
    try:
        done = subprocess.run([program] + words, input=text.encode('latin-1'), stdout=subprocess.PIPE, stderr=subprocess.PIPE)
    except OSError as error:
        raise Failure('%s cannot be run: %s' % (program, error.strerror))
    return done.returncode, done.stdout.decode('latin-1')


def explain(status, output):
    """What the program answered, for a message: its own words, and what its status means."""
    said = output.strip().split('\n')[-1][:300]
    meaning = STATUSES.get(status, 'it was stopped')
    return '%s (status %d: %s)' % (said or 'nothing', status, meaning)
