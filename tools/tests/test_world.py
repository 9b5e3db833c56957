"""Journals, worlds, values, timelines and conflicts, by small cases; the comparison with the program covers the rest."""
import unittest

from support import camera_plan, plan_from
from lundocsef_tools.failure import Failure
from lundocsef_tools.journal import Conflict, read_entry
from lundocsef_tools.report import read_report, report_of
from lundocsef_tools.sentences import activity_text, sentence
from lundocsef_tools.timelines import Profile

FIX = 'fix 9 open-goal 1 0 9 9 by %s : ok'
MODEL = '''horizon 100 lead 10
capacity power 5
level memory 0 10 4
state mode { off warm on } start off step off warm step warm on
kind shot { param n 1 6 duration 5 use power n raise memory n at end must mode on }
kind heat { duration 4 set mode on at end link start shot end -9 0 }
kind job { param n 1 6 default 2 duration 20 alternative { slot a shot ( n = n * 2 ) slot b shot order a end b start 0 3 } }
'''


def codes(plan):
    return ['%s %d %d' % (each.code, each.subject, each.detail) for each in plan.conflicts]


class EntryTest(unittest.TestCase):
    def test_each_form(self):
        entry = read_entry('2 fix 20 open-goal 1 0 10 20 by add obs 10 goal 1 : ok')
        self.assertEqual((entry.event, entry.reply, entry.conflict, entry.move),
                         ('fix', 'ok', Conflict(20, 'open-goal', 1, 0, 10, 20), ['add', 'obs', '10', 'goal', '1']))
        self.assertEqual(read_entry('11 commit 86 : held 85 over 0 0 85 89').reply, 'held 85 over 0 0 85 89')
        self.assertEqual(read_entry('5 in bad-line : x : y').message, 'x : y')
        self.assertEqual(read_entry('5 in eof').event, 'eof')

    def test_other_lines_are_refused(self):
        for line in ('', 'hello', 'x in ok : tick 3', '2 in ok', '2 fix 20 strange 1 0 10 20 by drop 1 : ok', '3 jump 4', '7 dispatch x'):
            with self.subTest(line=line), self.assertRaises(Failure):
                read_entry(line)


class WorldTest(unittest.TestCase):
    def test_an_entry_with_another_number_is_refused(self):
        with self.assertRaisesRegex(Failure, 'entry 1 of the journal has the number 7'):
            camera_plan(1).world.apply(read_entry('7 close'))

    def test_an_entry_that_does_not_fit_is_refused(self):
        for line in ('1 rest clear', '1 fix 9 late 1 0 0 0 by shift 1 9 : ok', '1 commit 4 : ok'):
            with self.subTest(line=line), self.assertRaisesRegex(Failure, 'does not fit'):
                camera_plan(1).world.apply(read_entry(line))

    def test_the_report_of_the_camera_example(self):
        report = read_report(report_of(camera_plan(33).snapshot))
        self.assertEqual((report.entries, report.now, report.committed, report.dispatched), (33, 105, 120, 4))
        self.assertEqual([goal.state for goal in report.goals], ['served', 'served', 'dropped', 'served'])
        self.assertEqual([(each.start, each.end) for each in report.activities], [(100, 108), (35, 40), (80, 120), (80, 81), (81, 83), (130, 170)])
        self.assertEqual(report.commands[-1].values, {'frames': 8, 'size': 16})

    def test_a_shift_moves_what_an_activity_contains_and_a_deletion_takes_it_away(self):
        moves = ['in ok : tick 1', FIX % 'add job 20', FIX % 'detail 1 0', FIX % 'shift 1 30']
        world = plan_from(MODEL, *moves).world
        self.assertEqual([each.start for each in world.activities.values()], [30, 30, 35])
        self.assertEqual(world.history[3], [3, 4])
        self.assertEqual(plan_from(MODEL, *(moves + [FIX % 'abstract 1'])).world.activities[1].children, [])
        self.assertEqual(plan_from(MODEL, *(moves + [FIX % 'delete 1'])).world.activities, {})

    def test_values_come_from_slots_defaults_and_repairs(self):
        plan = plan_from(MODEL, 'in ok : tick 1', FIX % 'add job 20', FIX % 'detail 1 0', FIX % 'assign 3 0 5')
        values = {number: each.values['n'] for number, each in plan.snapshot.evaluations.items()}
        self.assertEqual(values, {1: 2, 2: 4, 3: 5})
        self.assertIn('fills the slot a of #1 job', activity_text(plan, plan.world.activities[2]))

    def test_what_is_unset_or_out_of_range_is_not_firm(self):
        plan = plan_from(MODEL, 'in ok : tick 1', FIX % 'add job 20', FIX % 'assign 1 0 6', FIX % 'detail 1 0')
        self.assertEqual(codes(plan), ['bad-value 2 0', 'unset 3 0'])
        self.assertIn('n is 12, and has to be from 1 to 6', sentence(plan, plan.conflicts[0]))
        self.assertIsNone(plan.snapshot.end(plan.world.activities[2]))

    def test_conflicts_of_timelines_and_links(self):
        plan = plan_from(MODEL, 'in ok : tick 1', FIX % 'add shot 20', FIX % 'assign 1 0 6', FIX % 'add shot 22', FIX % 'assign 2 0 3', FIX % 'add heat 50')
        self.assertEqual(codes(plan), ['over 0 0', 'must 1 2', 'must 2 2', 'high 1 0', 'temporal 3 0', 'bad-step 3 0'])
        told = [sentence(plan, each) for each in plan.conflicts]
        self.assertEqual(told[0], 'power is in use more than there is from 20 to 25: 9, and the most is 5')
        self.assertEqual(told[1], '#1 shot needs mode on, and it is off from 20 to 25')
        self.assertEqual(told[4], '#3 heat: no shot ends 0 to 9 before it starts')
        self.assertEqual(told[5], '#3 heat sets mode to on at 54, and there is no step to it from off')

    def test_telemetry_takes_the_place_of_what_was_done_before(self):
        plan = plan_from(MODEL, 'in ok : tick 1', FIX % 'add shot 20', FIX % 'assign 1 0 3', FIX % 'add shot 40', FIX % 'assign 2 0 2',
                         'rest spent', 'commit 60 : ok', 'close', 'in ok : tick 25', 'rest spent', 'close', 'in ok : tele memory 1')
        memory = plan.snapshot.profiles['memory']
        self.assertEqual([memory.at(moment) for moment in (0, 24, 25, 44, 45)], [4, 4, 1, 1, 3])
        self.assertEqual((memory.marks[0].told, memory.marks[0].thought), (1, 7))

    def test_a_measured_end_and_a_halt(self):
        begun = ['in ok : tick 1', FIX % 'add shot 20', FIX % 'assign 1 0 3', 'rest clear', 'commit 30 : ok', 'close',
                 'in ok : tick 22', 'rest clear', 'commit 32 : ok', 'close']
        plan = plan_from(MODEL, *begun, 'in ok : until 1 27')
        memory = plan.snapshot.profiles['memory']
        self.assertEqual(plan.snapshot.end(plan.world.activities[1]), 27)
        self.assertEqual([memory.at(moment) for moment in (25, 26, 27)], [4, 4, 7])
        self.assertEqual(plan_from(MODEL, *begun, 'in ok : until 1 27', 'rest clear', 'close', 'in ok : until 1 24').world.activities[1].measured, 24)
        self.assertEqual(plan_from(MODEL, *begun, 'in ok : halt').world.committed, 23)

    def test_a_missed_goal_is_open_and_no_conflict(self):
        plan = plan_from(MODEL, 'in ok : goal 4 shot 5 9 must', 'rest spent', 'close', 'in ok : tick 9')
        self.assertTrue(plan.world.is_missed(4))
        self.assertEqual(plan.conflicts, [])


class ProfileTest(unittest.TestCase):
    PROFILE = Profile([0, 10, 20], [1, 5, 2])

    def test_pieces_and_spans(self):
        self.assertEqual(list(self.PROFILE.pieces(5, 30)), [(5, 10, 1), (10, 20, 5), (20, 30, 2)])
        self.assertEqual(list(self.PROFILE.pieces(12, 15)), [(12, 15, 5)])
        self.assertEqual(self.PROFILE.spans(0, 30, lambda value: value > 1), [(10, 30)])
        self.assertEqual(self.PROFILE.spans(30, 30, lambda value: True), [])

    def test_at(self):
        self.assertEqual([self.PROFILE.at(moment) for moment in (0, 9, 10, 99)], [1, 1, 5, 2])


if __name__ == '__main__':
    unittest.main()
