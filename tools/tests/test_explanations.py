"""What model-look says of models that are accepted, and of the messages and rounds of a journal."""
import unittest

from support import program
from lundocsef_tools.hints import additions, warnings
from lundocsef_tools.model_reader import read_model
from lundocsef_tools.program import call
from lundocsef_tools.refusals import remarks

HEAD = 'horizon 100 lead 10\n'
CAMERA = 'state cam { off warm on } start off step off warm step warm on\n'
# a model, and a warning that it deserves
REGRETS = (
    ('capacity power 10 kind a { duration 5 use power 40 }', 'kind a uses at least 40 of power, and there are 10: it can never run'),
    ('level b 0 9 3 kind a { param n 1 9 duration 5 lower b n - 4 at end }', 'the amount of `lower b` can come to -3'),
    ('level b 0 9 3 kind a { param n 1 3 duration 5 lower b n - 4 at end }', 'the amount of `lower b` is never from 0 to 1000000000'),
    ('level b 5 9 3', 'level b starts at 3, outside its limits 5 to 9'),
    (CAMERA + 'kind a { duration 5 must cam on }', 'state cam is needed to be on, and no kind sets it so'),
    ('state cam { off warm on } start off step warm on step on warm', 'state cam can never become warm by the steps that are allowed from off'),
    ('kind a { duration 5 link start a end -60 0 }', 'each needs another a before it, so the first of them never has its partner'),
    ('kind a { duration 5 link start a start 90 90 }', 'each needs another a after it, so the last of them never has its partner'),
    ('kind a { param n 1 9 duration 5 }', 'a `may` goal of a is dropped at once unless it presets n'),
    ('kind b { param n 1 9 duration n } kind c { duration 30 alternative { slot x b slot y b order x end y start 0 3 } }',
     'alternative 0: x may last 9, and y is placed where it may last 1'),
)
# models about which there is nothing to say
QUIET = (
    'capacity power 10 kind a { param n 1 9 default 3 duration n use power n }',
    'kind a { duration 5 link start a start 0 0 }',
)
MODEL = HEAD + '''level b 0 50 3 state cam { off on } start off any capacity p 3
kind obs { param n 1 8 default 2 param m 1 99 = n * 2 duration 5 }
kind own { param n 1 9 duration 5 }
'''
# a message, the planner's answer, and the reason
REFUSED = (
    ('goal 1 obs 20 30', 'bad-line', '`must` or `may` is missing'),
    ('goal 1 obs 20 30 must n=-1', 'bad-line', 'numbers have no sign'),
    ('goal 1 obs 20 30 must n=1 n=2', 'bad-line', 'n is preset twice'),
    ('goal 1 start 20 30 must', 'bad-line', '`start` is a reserved word'),
    ('tick 6.5', 'bad-line', "'.' belongs to no token"),
    ('tack 60', 'bad-line', 'a message begins with goal, tele, tick, until, halt or end; did you mean `tick`?'),
    ('END', 'bad-line', 'did you mean `end`?'),
    ('tick 60,', 'bad-line', 'its form is: tick MOMENT'),
    ('goal 1 obss 20 30 must', 'unknown-name', 'no kind obss; did you mean `obs`?'),
    ('goal 1 obs 20 30 must m=4', 'unknown-name', 'm of obs follows from other parameters'),
    ('goal 1 obs 20 30 must k=4', 'unknown-name', 'obs has no parameter k'),
    ('tele p 3', 'unknown-name', 'p is a capacity, and a capacity has no telemetry'),
    ('tele cam onn', 'unknown-name', 'cam has no state onn, but off, on'),
    ('tele q 3', 'unknown-name', 'the model has no timeline q'),
    ('tele b full', 'range', 'b is a level; its value is a number'),
    ('goal 1 obs 30 20 must', 'range', 'the earliest start, 30, is after the latest, 20'),
    ('goal 1 obs 90 120 must', 'range', 'the latest start, 120, is not before the horizon, 100'),
    ('goal 1 obs 20 30 must n=9', 'range', 'n is from 1 to 8'),
    ('goal 0 obs 20 30 must', 'range', 'the number of a goal is from 1'),
    ('goal 1 obs 0 0 must', 'too-late', 'no activity can start at 0'),
    ('tick 0', 'tick-back', 'the present is 0 already'),
    ('tick 101', 'tick-beyond', 'the horizon is 100'),
    ('until 1', 'bad-line', 'its form is: until ID MOMENT'),
    ('halt now', 'bad-line', 'its form is: halt'),
    ('until 1 101', 'range', 'at the horizon, 100, at the latest'),
    ('until 1 30', 'not-begun', 'the plan has no activity 1'),
)


class HintsTest(unittest.TestCase):
    def test_what_an_author_will_regret(self):
        for text, wanted in REGRETS:
            with self.subTest(text=text):
                self.assertIn(wanted, '\n'.join(warnings(read_model(HEAD + text))))

    def test_models_about_which_there_is_nothing_to_say(self):
        for text in QUIET:
            with self.subTest(text=text):
                self.assertEqual(list(warnings(read_model(HEAD + text))), [])

    def test_a_slot_that_is_far_enough_behind_the_one_before(self):
        found = list(warnings(read_model(
            HEAD + 'kind b { param n 1 9 default 1 duration n } '
            'kind c { duration 30 alternative { slot x b slot y b order x end y start 0 9 order parent start y start 9 9 } }')))
        self.assertEqual(len(found), 1)
        self.assertIn('a `may` goal of c', found[0])

    def test_the_program_accepts_all_of_them(self):
        path = program()
        for text in [text for text, _ in REGRETS] + list(QUIET):
            with self.subTest(text=text):
                self.assertEqual(call(path, ['check'], HEAD + text + '\nbegin\n')[0], 0)

    def test_four_kinds_are_tried(self):
        kinds = ' '.join('kind k%d { duration 5 raise b 2 at end }' % number for number in range(6))
        found = list(additions(read_model(HEAD + 'level b 1 9 3 ' + kinds)))
        self.assertEqual(found, ['b below 1: k0, k1, k2, k3 (never tried: k4, k5)', 'b above 9: nothing'])


class RemarksTest(unittest.TestCase):
    def remarks(self, *lines):
        return list(remarks(read_model(MODEL), ['%d %s' % each for each in enumerate(('open',) + lines)]))

    def test_each_refusal_has_its_reason(self):
        for message, reply, wanted in REFUSED:
            with self.subTest(message=message):
                found = self.remarks('in %s : %s' % (reply, message))
                self.assertEqual(len(found), 1)
                self.assertTrue(found[0].startswith('entry 1: `%s`: %s: ' % (message, reply)), found[0])
                self.assertIn(wanted, found[0])

    def test_the_program_gives_these_answers(self):
        path = program()
        for message, reply, _ in REFUSED:
            with self.subTest(message=message):
                self.assertIn('1 in %s : %s\n' % (reply, message), call(path, ['run', 'solo', '1'], MODEL + 'begin\n' + message + '\n')[1])

    def test_a_number_that_is_taken(self):
        found = self.remarks('in ok : goal 7 obs 20 30 must', 'close', 'in duplicate-goal : goal 7 obs 40 50 must')
        self.assertIn('entry 1 has taken this number', found[0])

    def test_an_end_that_no_activity_can_have(self):
        planned = 'in ok : goal 7 obs 20 30 must', 'fix 30 open-goal 7 0 20 30 by add obs 20 goal 7 : ok', 'rest clear'
        ahead = planned + ('commit 10 : ok', 'close')
        begun = planned + ('commit 30 : ok', 'close', 'in ok : tick 22', 'rest clear', 'close')
        self.assertIn('it starts at 20, and the present is 0', self.remarks(*ahead, 'in not-begun : until 1 30')[-1])
        self.assertIn('it starts at 20, and it ends after its start', self.remarks(*begun, 'in end-back : until 1 20')[-1])

    def test_goals_that_are_dropped_and_ticks_that_are_late(self):
        self.assertIn('it gives no value for n', self.remarks('in ok : goal 7 own 20 30 may')[0])
        self.assertEqual(self.remarks('in ok : goal 7 own 20 30 may n=1', 'in ok : tick 9'), [])
        self.assertIn('what is to start from 10 to 25 cannot be committed in time', self.remarks('in ok : tick 25')[0])

    def test_rounds_that_repair_in_vain(self):
        fix = 'fix 30 open-goal 7 0 20 30 by add obs 20 goal 7 : ok', 'fix 20 late 1 0 0 0 by delete 1 : ok'
        again = fix[0], fix[1].replace('1 0 0 0 by delete 1', '2 0 0 0 by delete 2')
        found = self.remarks('in ok : goal 7 obs 20 30 must', *(fix + again + ('rest spent',)))
        self.assertIn('rests spent: its repairs are spent; it went round with `add obs` for `open-goal` (2 times), `delete obs` for `late` (2 times)', found[0])


if __name__ == '__main__':
    unittest.main()
