"""plan-goals, plan-diff and plan-best: tables, differences, trials."""
import csv
import io
import json
import os
import tempfile
import unittest

from support import CAMERA, camera_plan, program, run, text_of
from lundocsef_tools.clock import Clock
from lundocsef_tools.commands import plan_best, plan_diff, plan_goals
from lundocsef_tools.difference import compare_reports
from lundocsef_tools.exports import as_csv, as_json
from lundocsef_tools.failure import Failure
from lundocsef_tools.report import read_report, report_of
from lundocsef_tools.tables import Row, Window, gaps
from lundocsef_tools.trials import words_of

SKY = '''horizon 1000 lead 100
capacity view 1
capacity light 1
level battery 0 900 300
kind eclipse { param length 1 400 param drain 1 90 default 5 duration length use light 1 lower battery drain at end }
kind sunlit { param gain 1 90 duration 10 raise battery gain at end }
kind no_view { param length 1 999 duration length use view 1 }
kind pin { duration 1 link start eclipse start 0 0 }
kind image { param n 1 9 default 2 param m 1 99 = n * 3 duration 5 }
'''


class MessagesTest(unittest.TestCase):
    def setUp(self):
        self.folder = tempfile.TemporaryDirectory()
        self.addCleanup(self.folder.cleanup)
        self.model = self.file('model', SKY)

    def file(self, name, text):
        path = os.path.join(self.folder.name, name)
        with open(path, 'w', encoding='utf-8') as file:
            file.write(text)
        return path

    def messages(self, *arguments):
        status, output = run(plan_goals.main, 'messages', self.model, *arguments)
        self.assertEqual(status, 0)
        return output.splitlines()

    def test_wishes_with_times_recurrences_and_presets(self):
        table = self.file('t', '# wishes\nkind,earliest,latest,must,every,times,n\nimage,07:00,07:05:05,,,,4\nimage,2026-11-29T08:00:00Z,08:10,may,1h30m,3,\n')
        found = self.messages(table, '--moment', '60', '--epoch', '2026-11-29T05:00Z', '--number', '7')
        self.assertEqual(found, ['goal 7 image 120 125 must n=4', 'goal 8 image 180 190 may', 'goal 9 image 270 280 may', 'goal 10 image 360 370 may'])

    def test_a_recurrence_ends_at_a_time_or_at_the_horizon(self):
        self.assertEqual(len(self.messages(self.file('t', 'kind,earliest,latest,every,until\nimage,200,210,50,400\n'))), 5)
        self.assertEqual(len(self.messages(self.file('u', 'kind,earliest,latest,every\nimage,200,210,200\n'))), 4)

    def test_windows_with_blockers_and_pins_gains_first(self):
        eclipses = self.file('e', 'start,end,drain\n300,400,7\n50,160,\n')
        suns = self.file('s', 'start,end,gain\n500,600,30\n')
        passes = self.file('p', 'start,end\n200,260\n700,720\n')
        found = self.messages('--during', 'eclipse', eclipses, '--during', 'sunlit', suns, '--pin', 'eclipse', 'pin', '--between', 'no_view', passes)
        self.assertEqual([line.split(' ', 2)[2] for line in found], [
            'sunlit 500 500 must gain=30', 'eclipse 100 100 must length=60', 'eclipse 300 300 must length=100 drain=7',
            'no_view 100 100 must length=100', 'no_view 260 260 must length=440', 'no_view 720 720 must length=280',
            'pin 100 100 must', 'pin 300 300 must'])

    def test_the_messages_are_taken(self):
        path = program()
        from lundocsef_tools.program import call
        eclipses = self.file('e', 'start,end\n300,400\n500,560\n')
        lines = self.messages('--during', 'eclipse', eclipses, '--pin', 'eclipse', 'pin')
        _, journal = call(path, ['run', 'solo', '8'], SKY + 'begin\n' + '\n'.join(lines) + '\nend\n')
        self.assertEqual(journal.count(' in ok : '), 4)

    def test_wrong_cells_are_named(self):
        for row, wanted in (('orbit,200,210', 'line 2: the model has no kind orbit'), ('image,200,190', 'line 2: the window from 200 to 190 is empty'),
                            ('image,2000,2100', 'the horizon is 1000'), ('image,noon,210', 'line 2: noon is a time'), ('image,,210', 'the column earliest is empty')):
            with self.subTest(row=row), self.assertRaisesRegex(Failure, wanted):
                self.messages(self.file('t', 'kind,earliest,latest\n%s\n' % row))
        for head, row, wanted in (('n', '99', 'n is 99, and has to be from 1 to 9'), ('m', '3', 'image has no parameter m that can be set'), ('must', 'want', 'must holds `must` or `may`'),
                                  ('number', 'x', 'number is x'), ('every', '0', 'comes after some time')):
            with self.subTest(head=head), self.assertRaisesRegex(Failure, wanted):
                self.messages(self.file('t', 'kind,earliest,latest,%s\nimage,200,210,%s\n' % (head, row)))
        with self.assertRaisesRegex(Failure, 'names no column latest'):
            self.messages(self.file('t', 'kind,earliest\nimage,200\n'))

    def test_gaps(self):
        windows = [Window(Row('', {}), *pair) for pair in ((20, 30), (25, 40), (90, 120))]
        self.assertEqual([(gap.start, gap.end) for gap in gaps(windows, 10, 100)], [(10, 20), (40, 90)])


class TableTest(unittest.TestCase):
    def test_commands_as_csv(self):
        rows = list(csv.DictReader(io.StringIO(as_csv(camera_plan(), Clock(60, '2026-11-29T06:00Z'), 'commands'))))
        self.assertEqual(rows[3], {'id': '1', 'kind': 'shot', 'start': '100', 'start_time': '2026-11-29T07:40:00Z', 'sent_at': '105',
                                   'sent_at_time': '2026-11-29T07:45:00Z', 'values': 'frames=8 size=16'})

    def test_all_as_json(self):
        data = json.loads(as_json(camera_plan(), Clock()))
        self.assertEqual((data['now'], len(data['activities']), [goal['state'] for goal in data['goals']]), (130, 6, ['served', 'served', 'dropped', 'served']))
        self.assertEqual(data['activities'][4]['values'], {'frames': 2, 'size': 4})
        self.assertEqual(data['activities'][4]['slot'], 'b')

    def test_the_tables_agree_with_the_report(self):
        plan = camera_plan()
        report = read_report(report_of(plan.snapshot))
        data = json.loads(as_json(plan, Clock()))
        self.assertEqual([(each['id'], each['start'], each['end']) for each in data['activities']], [(each.id, each.start, each.end) for each in report.activities])
        self.assertEqual([(each['id'], each['values']) for each in data['commands']], [(each.id, each.values) for each in report.commands])

    def test_the_command(self):
        program()
        status, output = run(plan_goals.main, 'table', *CAMERA, '--what', 'goals')
        self.assertEqual((status, output.splitlines()[0]), (0, 'number,kind,earliest,latest,must,state,served_by,start,values'))


class DifferenceTest(unittest.TestCase):
    def reports(self, first, second):
        return [read_report(report_of(camera_plan(entries).snapshot)) for entries in (first, second)]

    def test_equal_plans(self):
        self.assertEqual(compare_reports(*self.reports(44, 44), ('a', 'b'))[-1], 'The two plans are the same.')

    def test_what_differs(self):
        lines = compare_reports(*self.reports(12, 44), ('a', 'b'))
        text = '\n'.join(' '.join(line.split()) for line in lines)
        for wanted in ('entries 12 | 44', 'dropped 0 | 1', '3 shot (not there) | dropped', 'downlink | 130 to 170', 'shot 0 | 3'):
            self.assertIn(wanted, text)

    def test_the_command_takes_journals(self):
        program()
        status, output = run(plan_diff.main, '--model', CAMERA[0], CAMERA[1], CAMERA[1])
        self.assertEqual((status, output.splitlines()[-1]), (0, 'The two plans are the same.'))
        with self.assertRaisesRegex(Failure, 'is no report; of a journal, name the model by --model'):
            run(plan_diff.main, CAMERA[1], CAMERA[1])


class BestTest(unittest.TestCase):
    def test_what_is_tried(self):
        self.assertEqual(words_of([4, 8], [7]), [('run', 'solo', '4'), ('run', 'solo', '8'), ('run', 'pair', '4', '7'), ('run', 'pair', '8', '7')])
        self.assertEqual(plan_best.numbers('2,4,8-10'), [2, 4, 8, 9, 10])

    def test_the_best_comes_first_and_is_kept(self):
        program()
        with tempfile.TemporaryDirectory() as folder:
            path = os.path.join(folder, 'best')
            status, output = run(plan_best.main, CAMERA[0], '--turns', '1,8', '-o', path)
            self.assertEqual(status, 0)
            self.assertEqual(output.splitlines()[1].split()[:5], ['solo', '8', '3', '0', '1'])
            self.assertEqual(text_of(path), text_of(CAMERA[1]))


if __name__ == '__main__':
    unittest.main()
