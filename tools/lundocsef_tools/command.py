"""How each command begins and ends."""
import os
import sys

from .failure import Failure
from .readable import shown


def start(name, main, arguments=None):
    """Runs `main` with the words behind the command's name; returns the status with which the command ends."""
    for stream in (sys.stdout, sys.stderr):
        if hasattr(stream, 'reconfigure'):
            stream.reconfigure(encoding='utf-8', errors='replace')       # whatever the language of the terminal
    try:
        status = main(sys.argv[1:] if arguments is None else arguments)
        sys.stdout.flush()
        return status
    except Failure as failure:
        sys.stderr.write('%s: %s\n' % (name, shown(str(failure))))
        return 1
    except KeyboardInterrupt:
        return 130
    except BrokenPipeError:
        # Whoever read the output has gone away; keep Python from complaining when it closes the stream.
        os.dup2(os.open(os.devnull, os.O_WRONLY), sys.stdout.fileno())
        return 1
    except RecursionError:
        sys.stderr.write('%s: the model is nested too deeply\n' % name)
        return 1


def write(path, text):
    """Writes a result to a file, or to standard output where no file is named."""
    if path in (None, '-'):
        sys.stdout.write(text)
        return
    write_bytes(path, text.encode('utf-8'))


def write_bytes(path, data):
    try:
        with open(path, 'wb') as out:
            out.write(data)
    except OSError as error:
        raise Failure('%s cannot be written: %s' % (path, error.strerror))
