"""The exit status of the program itself: each of 0 and 2 to 9, by what it reads, where it writes, and the memory that it has."""
import os
import resource
import subprocess
import unittest

from support import program

MODEL = 'horizon 100000 lead 30 kind obs { duration 5 }\nbegin\n'
OPEN = '0 open turns 8 live 10000 goals 20000 entries 250000\n'
JOURNAL = OPEN + '1 in end : end\n'
USAGE = 'usage: run solo N | run pair N SEED | check | replay | report | demo N | run crew N P SEED | flex ID | forecast | improve N\n'
RUNS = 'run solo 8', 'run pair 8 7', 'run crew 8 2 7'
NO_REPAIRS = ''.join('# planner %d entries 0 ok 0\n' % number for number in (1, 2))
# rounds of four entries, and two of three: the log has 249,999 entries with the open one, and room for one more
FULL = MODEL + ''.join('tick %d\n' % moment for moment in range(1, 62499)) + 'x\nx\n'
LONG = MODEL + 'x' * 4097 + '\n'


def behind(words):
    """What stands behind the journal of a run in which nothing is to be planned."""
    return NO_REPAIRS if 'crew' in words else ''


# the words, the input, the status, and what is written; None: anything
ENDINGS = [(words, text, status, output) for words in RUNS for text, status, output in (
    (MODEL + 'end\n', 0, JOURNAL + behind(words)), (MODEL, 0, OPEN + '1 in eof\n' + behind(words)), ('horizon 9', 3, 'model: no begin\n'),
    (LONG, 6, OPEN), (FULL + 'end\nx\n', 0, None), (FULL + 'x\nend\n', 7, None))] + [
    ('check', MODEL, 0, 'model ok: timelines 0 kinds 1\n'),
    ('check', '$\nbegin\n', 3, 'model: bad byte at 0\n'),
    ('check', 'x' * 4097, 6, ''),
    ('replay', MODEL + JOURNAL, 0, 'journal ok: entries 2 finished\n'),
    ('replay', MODEL, 8, 'journal: entry 0: not a line\n'),
    ('replay', MODEL + 'x' * 4161, 6, ''),
    ('report', MODEL + JOURNAL, 0, 'report entries 2 now 0 committed 0 dispatched 0 conflicts 0\n'),
    ('report', MODEL + OPEN + '1 rest clear\n', 8, 'journal: entry 1: not now\n'),
    ('flex 0', MODEL + JOURNAL, 0, 'flex windows 0\n'),
    ('flex 0', MODEL, 8, 'journal: entry 0: not a line\n'),
    ('flex 0', MODEL + 'x' * 4161, 6, ''),
    ('forecast', MODEL + 'journal\n' + JOURNAL, 0, 'forecast spans 0\n'),
    ('forecast', MODEL + JOURNAL, 3, 'rate: line 3: bad line\n'),
    ('forecast', MODEL, 3, 'rate: no journal\n'),
    ('forecast', MODEL + 'journal\n', 8, 'journal: entry 0: not a line\n'),
    ('forecast', MODEL + 'x' * 4161, 6, ''),
    ('improve 1', MODEL + 'prefer obs late 2\njournal\n' + JOURNAL, 0, 'improve score 0\nimprove steps 0 score 0\n'),
    ('improve 1', MODEL + JOURNAL, 3, 'prefer: line 3: bad line\n'),
    ('improve 1', MODEL, 3, 'prefer: no journal\n'),
    ('improve 1', MODEL + 'journal\n', 8, 'journal: entry 0: not a line\n'),
    ('improve 1', MODEL + 'x' * 4161, 6, ''),
    ('demo 2', '', 0, 'demo 2 entries 20 activities 4 dispatched 0 conflicts 0\n'),
    ('', '', 2, USAGE), ('flex', '', 2, USAGE), ('improve 0', '', 2, USAGE), ('improve 1001', '', 2, USAGE),
    ('run solo 0', '', 2, USAGE), ('run crew 8 1 7', '', 2, USAGE), ('run crew 8 9 7', '', 2, USAGE), ('run', '', 2, USAGE), ('--help', '', 2, USAGE)]


def ended(words, **streams):
    done = subprocess.run([program()] + words.split(), stderr=subprocess.PIPE, timeout=60, **streams)
    return done.returncode, done.stdout


class StatusesTest(unittest.TestCase):
    def test_what_was_read_decides(self):
        for words, text, status, output in ENDINGS:
            with self.subTest(words=words, text=text[-30:]):
                found, written = ended(words, input=text.encode(), stdout=subprocess.PIPE)
                self.assertEqual(found, status)
                if output is not None:
                    self.assertEqual(written.decode('latin-1'), output)

    def test_a_read_fails(self):
        for words in RUNS + ('check', 'replay', 'report', 'flex 0', 'forecast', 'improve 1'):
            with self.subTest(words=words):
                folder = os.open('/', os.O_RDONLY)
                try:
                    self.assertEqual(ended(words, stdin=folder, stdout=subprocess.PIPE), (4, b''))
                finally:
                    os.close(folder)

    def test_a_write_fails(self):
        for words in RUNS + ('check', 'replay', 'report', 'flex 0', 'forecast', 'improve 1', 'demo 1', 'run'):
            with self.subTest(words=words), open('/dev/full', 'wb') as full:
                self.assertEqual(ended(words, input=(MODEL + 'end\n').encode(), stdout=full)[0], 5)

    def test_memory_runs_out(self):
        """With less and less memory: what was written is always the front of the whole, and at some size the program says so."""
        text = (FULL + 'end\n').encode()
        whole, found = ended('run solo 8', input=text, stdout=subprocess.PIPE)[1], set()
        for size in range(4 << 20, 25 << 20, 4 << 20):
            status, written = ended('run solo 8', input=text, stdout=subprocess.PIPE,
                                    preexec_fn=lambda: resource.setrlimit(resource.RLIMIT_AS, (size, size)))
            found.add(status)
            self.assertTrue(whole.startswith(written), size)
        self.assertIn(9, found)


if __name__ == '__main__':
    unittest.main()
