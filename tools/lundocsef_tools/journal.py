"""The lines of a journal."""
from dataclasses import dataclass
from typing import NamedTuple, Optional, Sequence

from .failure import Failure
from .readable import readable

CODES = ('open-goal off-goal late unset bad-value undetailed overrun temporal link over low high must bad-step').split()
CODE_ORDER = {code: number for number, code in enumerate(CODES)}
OF_TIMELINES = ('over', 'low', 'high')     # conflicts whose subject is a timeline; all but these and open-goal name an activity


class Conflict(NamedTuple):
    moment: int
    code: str
    subject: int
    detail: int
    a: int
    b: int

    def key(self):
        return (self.moment, CODE_ORDER[self.code], self.subject, self.detail, self.a, self.b)

    def of_activity(self):
        return self.code != 'open-goal' and self.code not in OF_TIMELINES

    def __str__(self):
        return '%d %s %d %d %d %d' % self


@dataclass
class Entry:
    """One line. `event` is open, in, eof, fix, rest, commit, dispatch or close; the other fields are those that it has."""
    number: int
    event: str
    reply: str = ''                    # of in, fix, commit and rest
    message: str = ''                  # of in: the message as it came
    conflict: Optional[Conflict] = None
    move: Sequence[str] = ()
    moment: int = 0                    # of commit
    command: Sequence[str] = ()


def read_conflict(parts):
    return Conflict(int(parts[0]), parts[1], *(int(part) for part in parts[2:6]))


def read_entry(line):
    """The entry of a line; a Failure where it is none."""
    try:
        return parse(line)
    except (IndexError, ValueError, TypeError, KeyError):
        raise Failure('this is no line of a journal: %s' % readable(line[:120]))


def parse(line):
    parts = line.split(' ')
    number, event = int(parts[0]), parts[1]
    if event == 'fix':
        return fix_of(number, parts)
    if event == 'in':
        if parts[2:] == ['eof']:
            return Entry(number, 'eof')
        head, message = line.split(' : ', 1)
        return Entry(number, 'in', head.split(' ', 2)[2], message)
    if event == 'rest':
        return Entry(number, event, parts[2])
    if event == 'commit':
        return Entry(number, event, ' '.join(parts[4:]), moment=int(parts[2]))
    if event == 'dispatch':
        int(parts[2])
        return Entry(number, event, command=parts[2:])
    if event in ('open', 'close'):
        return Entry(number, event)
    raise ValueError(line)


def fix_of(number, parts):
    """`N fix FROM CODE SUBJECT DETAIL A B by MOVE : REPLY`"""
    conflict = Conflict(int(parts[2]), parts[3], int(parts[4]), int(parts[5]), int(parts[6]), int(parts[7]))
    if parts[8] != 'by' or conflict.code not in CODE_ORDER:
        raise ValueError(parts)
    colon = parts.index(':', 9)
    return Entry(number, 'fix', ' '.join(parts[colon + 1:]), '', conflict, parts[9:colon])


def is_blank(line):
    """Whether nothing stands before the first `#` of a line. The program skips these lines, as those that `run crew` writes behind a journal."""
    return not line.split('#', 1)[0].strip(' \t\r')


def lines_of(lines):
    """The lines of a journal, without those that are blank."""
    return [line for line in lines if not is_blank(line)]
