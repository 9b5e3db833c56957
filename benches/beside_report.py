"""Times a command of the program beside `report`. What `forecasts.py`, `improvements.py` and `windows.py` share."""
import argparse
import os
import re
import sys
import tempfile
import time

PROGRAM = os.path.join(os.path.dirname(os.path.abspath(__file__)), '..', 'crates', 'lundocsef', 'out', 'lundocsef')


def options(description, journals):
    """The program and the journals that the command line names; `journals` is how many it takes, `*` or `+`."""
    parser = argparse.ArgumentParser(description=description, formatter_class=argparse.RawDescriptionHelpFormatter)
    parser.add_argument('--program', default=PROGRAM)
    parser.add_argument('journals', metavar='JOURNAL', nargs=journals)
    return parser.parse_args()


def run(words, path):
    """The seconds and the megabytes of one run, and the first line that it wrote."""
    reading, writing = os.pipe()
    began = time.monotonic()
    child = os.fork()
    if child == 0:
        os.dup2(os.open(path, os.O_RDONLY), 0)
        os.dup2(writing, 1)
        os.close(reading)
        os.execv(words[0], words)
    os.close(writing)
    with os.fdopen(reading, 'rb') as output:
        first = output.readline().decode('latin-1').strip()
        while output.read(1 << 16):
            pass
    usage = os.wait4(child, 0)[2]
    return time.monotonic() - began, usage.ru_maxrss / 1024, first


def least(words, path):
    """The least seconds and megabytes of three runs, and the first line that was written."""
    runs = [run(words, path) for _ in range(3)]
    return min(seconds for seconds, _, _ in runs), min(size for _, size, _ in runs), runs[0][2]


def show(name, program, command, report_input, command_input):
    """Prints a line: `report` over the one input, and the command over the other."""
    report, other = least([program, 'report'], report_input), least([program, *command], command_input)
    print('%-24s report %6.3f s %5.0f MB   %s %6.3f s %5.0f MB   %s' % (name, *report[:2], ' '.join(command), *other))
    sys.stdout.flush()


def split(text):
    """The model's text with its `begin` line, and the journal."""
    found = re.search(r'^[ \t]*begin[ \t]*$\n?', text, re.M)
    return text[:found.end()], text[found.end():]


def show_with_lines(command, lines, description):
    """The line of each journal that is named, where the command reads these lines before the journal."""
    given = options(description, '+')
    for path in given.journals:
        with open(path, encoding='latin-1') as file:
            model, journal = split(file.read())
        with tempfile.NamedTemporaryFile('w', encoding='latin-1') as file:
            file.write(model + '\n'.join(lines(model, journal)) + '\njournal\n' + journal)
            file.flush()
            show(os.path.basename(path), given.program, command, path, file.name)
