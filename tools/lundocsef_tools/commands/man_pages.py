"""man-pages: the manual, made from the docs."""
import os

from ..command import write
from ..failure import Failure
from ..manual import page, without_sections
from ..options import parser_of
from ..program import REPOSITORY

DESCRIPTION = """Makes the pages lundocsef(1), lundocsef-model(5) and lundocsef-journal(5) of the manual from README.md, docs/MODEL.md and
docs/JOURNAL.md, whatever stands there."""
EXAMPLES = """example:
  man-pages ~/.local/share/man && man lundocsef-model
"""
# name, section, what it is, the file it is made of
PAGES = (
    ('lundocsef', 1, 'plans the activities of a spacecraft, and keeps planning while the mission runs', 'README.md'),
    ('lundocsef-model', 5, 'the language in which a spacecraft is described to lundocsef', 'docs/MODEL.md'),
    ('lundocsef-journal', 5, 'the messages that lundocsef reads and the journal that it writes', 'docs/JOURNAL.md'),
)
FORMS = ('run solo N', 'run pair N SEED', 'check', 'replay', 'report', 'demo N', 'run crew N P SEED', 'flex ID', 'forecast', 'improve N')
UNWANTED = ('crate', 'trusted', 'speed', 'repository')       # sections of README.md for those who change the program


def main(arguments):
    parser = parser_of('man-pages', DESCRIPTION, EXAMPLES)
    parser.add_argument('folder', metavar='FOLDER', help='the folder in which man1 and man5 are, or are to be')
    given = parser.parse_args(arguments)
    for name, section, _, _ in PAGES:
        folder = os.path.join(given.folder, 'man%d' % section)
        try:
            os.makedirs(folder, exist_ok=True)
        except OSError as error:
            raise Failure('%s cannot be made: %s' % (folder, error.strerror))
        write(os.path.join(folder, '%s.%d' % (name, section)), made(name))
    return 0


def made(wanted):
    """The text of one page."""
    name, section, about, path = next(each for each in PAGES if each[0] == wanted)
    try:
        with open(os.path.join(REPOSITORY, path), encoding='utf-8') as file:
            text = file.read()
    except OSError as error:
        raise Failure('%s cannot be read: %s' % (path, error.strerror))
    if path == 'README.md':
        text = without_sections(text, UNWANTED)
    others = [(other, number) for other, number, _, _ in PAGES if other != name]
    return page(name, section, about, text, others, FORMS if section == 1 else ())
