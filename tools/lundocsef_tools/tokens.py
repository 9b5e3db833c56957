"""Tokens, which models and messages share."""
import re
from dataclasses import dataclass

from .failure import Failure

TOKEN = re.compile(r'[A-Za-z][A-Za-z0-9_]*|[0-9]+|[{}(),=+*-]')
BLANKS = ' \t\r\n'
RESERVED = ('horizon lead capacity level state start end step any kind param default duration use raise lower set must at '
            'link alternative slot order parent min max begin').split()
BEGIN = re.compile(r'^[ \t\r]*begin[ \t\r]*(#.*)?$')


@dataclass(frozen=True)
class Token:
    text: str
    at: int          # the number of bytes before it


def without_comments(text):
    """The text with a blank for each character of a comment, so that places stay the same."""
    return re.sub(r'#[^\n]*', lambda comment: ' ' * len(comment.group(0)), text)


def tokens(text):
    """All tokens of a text; a byte that belongs to none is a Failure."""
    bare = without_comments(text)
    found, at = [], 0
    while at < len(bare):
        if bare[at] in BLANKS:
            at += 1
            continue
        match = TOKEN.match(bare, at)
        if match is None:
            raise Failure('line %d: %r belongs to no token' % (line_of(text, at), bare[at]))
        found.append(Token(match.group(0), at))
        at = match.end()
    return found


def words(line):
    """The tokens of one line, as strings; bytes that belong to no token are passed over."""
    return TOKEN.findall(line.split('#', 1)[0])


def line_of(text, at):
    """The number of the line, from 1, in which this place stands."""
    return text.count('\n', 0, at) + 1


def is_begin(line):
    return BEGIN.match(line) is not None
