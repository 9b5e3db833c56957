"""The commands as a user calls them: what they write, and what they say of bad inputs."""
import contextlib
import importlib
import io
import os
import subprocess
import sys
import tempfile
import unittest
from unittest import mock

from support import CAMERA, EXAMPLES, TOOLS, program, text_of
from lundocsef_tools.command import start

COMMANDS = ('lundocsef-x', 'man-pages', 'model-look', 'plan-best', 'plan-diff', 'plan-film', 'plan-goals', 'plan-live', 'plan-svg')


def call(command, *arguments, text='', **environment):
    """(status, output, errors) of a command within this process."""
    main = importlib.import_module('lundocsef_tools.commands.' + command.replace('-', '_')).main
    out, errors = io.StringIO(), io.StringIO()
    stdin = io.TextIOWrapper(io.BytesIO(text.encode('latin-1')))
    with mock.patch.dict(os.environ, environment), mock.patch('sys.stdin', stdin):
        with contextlib.redirect_stdout(out), contextlib.redirect_stderr(errors):
            try:
                status = start(command, main, list(arguments))
            except SystemExit as end:
                status = end.code
    return status, out.getvalue(), errors.getvalue()


def call_apart(command, *arguments, text=''):
    """The same in a process of its own."""
    done = subprocess.run([sys.executable, os.path.join(TOOLS, command)] + list(arguments), input=text, capture_output=True, encoding='utf-8')
    return done.returncode, done.stdout, done.stderr


class HelpTest(unittest.TestCase):
    def test_each_command_has_help(self):
        for command in COMMANDS:
            with self.subTest(command=command):
                status, output, _ = call(command, '--help')
                self.assertEqual((status, output[:len('usage: ' + command)]), (0, 'usage: ' + command))
                self.assertIn('example', output)

    def test_the_files_of_the_commands_start_them(self):
        for command in COMMANDS:
            with self.subTest(command=command):
                self.assertEqual(call_apart(command, '--help')[0], 0)

    def test_a_missing_program_is_named(self):
        for source, arguments, environment in (('--program', ('--program', '/no/such'), {}), ('$LUNDOCSEF', (), {'LUNDOCSEF': '/no/such'})):
            status, _, errors = call('plan-svg', *CAMERA, *arguments, **environment)
            self.assertEqual((status, errors), (1, 'plan-svg: %s names /no/such, and that is no program that can be run\n' % source))


class BadInputTest(unittest.TestCase):
    """Each bad input: a clear message with the program's verdict, status 1, no traceback."""

    def setUp(self):
        program()
        self.folder = tempfile.TemporaryDirectory()
        self.addCleanup(self.folder.cleanup)

    def file(self, name, text):
        path = os.path.join(self.folder.name, name)
        with open(path, 'w', encoding='latin-1') as file:
            file.write(text)
        return path

    def refused(self, wanted, command, *arguments, text=''):
        with self.subTest(command=command):
            status, output, errors = call(command, *arguments, text=text)
            self.assertEqual(status, 1, errors)
            self.assertTrue(errors.startswith(command + ': '), errors)
            self.assertNotIn('Traceback', errors)
            self.assertIn(wanted, errors)

    def each(self, wanted, *arguments):
        for command in ('plan-svg', 'plan-film', 'model-look'):
            self.refused(wanted, command, *arguments)

    def test_a_journal_that_is_not_legal(self):
        wrong = self.file('wrong', text_of(CAMERA[1]).replace('4 rest clear', '4 rest spent'))
        self.each('is not a legal journal of this model; the program says: journal: entry 4: reply is clear (status 8', CAMERA[0], wrong)
        self.refused('journal: entry 4: reply is clear', 'plan-live', CAMERA[0], text=text_of(wrong))

    def test_a_text_that_is_no_journal(self):
        other = self.file('other', 'Dear planner,\nplease draw this.\n')
        self.each('journal: entry 0: not a line', CAMERA[0], other)
        self.refused('journal: entry 0: not a line', 'plan-live', CAMERA[0], text=text_of(other))

    def test_messages_in_the_place_of_a_journal(self):
        self.each('These lines are messages; a journal comes of them by `lundocsef-x run`', CAMERA[0], CAMERA[0])

    def test_nothing_at_all(self):
        self.each('journal: entry 0: not a line', CAMERA[0], self.file('empty', ''))
        self.refused('standard input holds no journal', 'plan-live', CAMERA[0])

    def test_a_journal_of_another_model(self):
        other = self.file('other', 'horizon 100 lead 10 kind obs { duration 5 }\nbegin\n')
        self.each('journal: entry 1: reply is unknown-name', other, CAMERA[1])

    def test_a_missing_file(self):
        self.each('/no/such cannot be read: No such file', '/no/such', CAMERA[1])
        self.each('/no/such cannot be read: No such file', CAMERA[0], '/no/such')

    def test_a_text_that_is_no_model(self):
        wrong = self.file('wrong', 'horizon 100\nlead 5\ncapasity power 4\nbegin\n')
        self.each('the program says: model: unexpected at 19 (status 3', wrong, CAMERA[1])

    def test_bytes_of_any_kind(self):
        wrong = self.file('bytes', ''.join(chr(number) for number in range(256)))
        self.each('journal: entry 0: not a line', CAMERA[0], wrong)

    def test_a_picture_with_no_extent(self):
        self.refused('has to begin at 0 or later', 'plan-svg', *CAMERA, '--from', '50', '--to', '50')
        self.refused('no kind or timeline nothing', 'plan-svg', *CAMERA, '--hide', 'nothing')
        self.refused('noon is no time', 'plan-svg', *CAMERA, '--moment', '60', '--epoch', 'noon')


class GoodInputTest(unittest.TestCase):
    def setUp(self):
        program()

    def test_plan_svg(self):
        for options, start in (((), '<svg '), (('--html',), '<!doctype html>'), (('--text',), 'A camera,'), (('--entry', '5'), '<svg ')):
            with self.subTest(options=options):
                status, output, errors = call('plan-svg', *CAMERA, *options)
                self.assertEqual((status, errors), (0, ''))
                self.assertTrue(output.startswith(start))

    def test_one_file_with_all_of_it(self):
        whole = text_of(CAMERA[0]).split('begin\n')[0] + 'begin\n' + text_of(CAMERA[1])
        self.assertEqual(call('plan-svg', '-', text=whole)[:2], call('plan-svg', *CAMERA)[:2])

    def test_the_lines_of_planners_are_passed_over(self):
        crew = os.path.join(EXAMPLES, 'crew', 'camera.journal')
        for command in ('plan-svg', 'plan-film', 'model-look'):
            with self.subTest(command=command):
                self.assertEqual(call(command, CAMERA[0], crew)[::2], (0, ''))
        self.assertEqual(call('plan-live', CAMERA[0], text=text_of(crew))[::2], (0, ''))

    def test_plan_film(self):
        status, output, errors = call('plan-film', *CAMERA)
        self.assertEqual((status, errors, output.count('<svg ')), (0, '', 9))

    def test_plan_live_draws_at_each_close(self):
        status, output, errors = call('plan-live', CAMERA[0], '--columns', '90', text=text_of(CAMERA[1]))
        self.assertEqual((status, errors, output.count('now N, committed to C')), (0, '', 9))

    def test_plan_live_can_draw_the_latest_plan_alone(self):
        status, output, errors = call('plan-live', CAMERA[0], '--latest', text=text_of(CAMERA[1]))
        self.assertEqual((status, errors, output.count('now N, committed to C')), (0, '', 1))
        self.assertIn('entry 43', output)

    def test_plan_live_keeps_the_journal(self):
        with tempfile.TemporaryDirectory() as folder:
            path = os.path.join(folder, 'kept')
            self.assertEqual(call('plan-live', CAMERA[0], '--keep', path, text=text_of(CAMERA[1]))[0], 0)
            self.assertEqual(text_of(path), text_of(CAMERA[1]))

    def test_model_look(self):
        status, output, _ = call('model-look', CAMERA[0])
        self.assertEqual(status, 0)
        self.assertIn('a link of shot has no partner: warm_up', output)
        self.assertIn('a `may` goal of survey is dropped at once', output)
        status, output, _ = call('model-look', *CAMERA)
        self.assertIn('entry 35: `goal 5 shot 20 30 must`: too-late: the latest start, 30, lies before 165', output)

    def test_model_look_at_a_fault(self):
        status, output, _ = call('model-look', '-', text='horizon 100\nlead 5\ncapasity power 4\n')
        self.assertEqual(status, 1)
        self.assertEqual(output, 'model: unexpected at 19\n-:3:1: did you mean `capacity`?\n  capasity power 4\n  ^\n')


class WrapperTest(unittest.TestCase):
    def setUp(self):
        self.program = program()

    def test_it_writes_what_the_program_writes(self):
        journal = text_of(CAMERA[1])
        self.assertEqual(call_apart('lundocsef-x', 'run', CAMERA[0]), (0, journal, ''))
        messages = text_of(CAMERA[0]).split('begin\n')[1]
        self.assertEqual(call_apart('lundocsef-x', 'run', CAMERA[0], '-', text=messages), (0, journal, ''))
        self.assertEqual(call_apart('lundocsef-x', 'replay', *CAMERA), (0, 'journal ok: entries 44 finished\n', ''))
        self.assertEqual(call_apart('lundocsef-x', 'check', CAMERA[0])[1], 'model ok: timelines 3 kinds 4\n')
        self.assertEqual(call_apart('lundocsef-x', 'report', *CAMERA)[1].split()[:3], ['report', 'entries', '44'])
        self.assertEqual(call_apart('lundocsef-x', 'demo', '2')[1], 'demo 2 entries 20 activities 4 dispatched 0 conflicts 0\n')

    def test_several_planners(self):
        status, journal, _ = call_apart('lundocsef-x', 'run', '--seed', '7', '--planners', '2', CAMERA[0])
        self.assertEqual(status, 0)
        self.assertEqual([line.split()[:3] for line in journal.split('\n') if line.startswith('#')], [['#', 'planner', '1'], ['#', 'planner', '2']])

    def test_it_ends_with_the_programs_status(self):
        status, output, errors = call_apart('lundocsef-x', 'replay', CAMERA[0], CAMERA[0])
        self.assertEqual((status, output), (8, 'journal: entry 0: not a line\n'))
        self.assertIn('status 8: the journal is not legal', errors)
        self.assertEqual(call_apart('lundocsef-x', 'run', CAMERA[0], '--turns', '0')[0], 2)
        self.assertEqual(call_apart('lundocsef-x', 'check', '/no/such')[0], 1)

    def test_version_and_completion(self):
        self.assertIn('program ' + self.program, call_apart('lundocsef-x', '--version')[1])
        for shell, word in (('bash', 'complete -F'), ('zsh', '#compdef lundocsef-x')):
            self.assertIn(word, call_apart('lundocsef-x', '--completion', shell)[1])

    def test_the_completion_for_bash(self):
        script = '. tools/completion/lundocsef-x.bash; COMP_WORDS=(lundocsef-x %s); COMP_CWORD=%d; _lundocsef_x; echo "${COMPREPLY[@]}"'
        for words, at, wanted in (('""', 1, 'run check replay report demo flex forecast improve'), ('run --t', 2, '--turns'), ('--c', 1, '--completion'), ('check READ', 2, 'README.md')):
            done = subprocess.run(['bash', '-c', script % (words, at)], capture_output=True, encoding='utf-8', cwd=os.path.dirname(TOOLS))
            self.assertEqual(done.stdout.strip(), wanted, done.stderr)


if __name__ == '__main__':
    unittest.main()
