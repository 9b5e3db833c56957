"""Bytes of models and journals as text that can be shown."""
import re

CONTROL = re.compile('[\x00-\x08\x0b-\x1f\x7f-\x9f\ud800-\udfff\ufffe\uffff]')
STRANGE = '\ufffd'


def readable(text):
    """The text that a file's bytes mean, given as one character for each byte. What no screen shows, or what would move
    its cursor, becomes a sign of its own."""
    return shown(text.encode('latin-1', 'replace').decode('utf-8', 'replace'))


def shown(text):
    return CONTROL.sub(STRANGE, text)
