"""Models, expressions and the networks of alternatives."""
import unittest

from support import CAMERA, text_of
from lundocsef_tools.expressions import Operation, bounds, names, text, value
from lundocsef_tools.failure import Failure
from lundocsef_tools.model_reader import read_model, split_at_begin, title_of
from lundocsef_tools.network import impossible_cycle
from lundocsef_tools.tokens import is_begin, words

SURVEY = '''horizon 100 lead 10
kind shot { param n 1 8 duration n }
kind survey { duration 40 alternative { slot a shot slot b shot order a end b start 2 10 order b end parent end 0 40 } }
'''


class ModelTest(unittest.TestCase):
    def test_the_camera_example(self):
        model = read_model(split_at_begin(text_of(CAMERA[0]))[0])
        self.assertEqual((model.horizon, model.lead, model.title), (1000, 60, 'A camera, its power and memory, and an antenna'))
        self.assertEqual([line.sort for line in model.timelines], ['capacity', 'level', 'state'])
        shot = model.kind_named['shot']
        self.assertEqual([param.name for param in shot.params], ['frames', 'size'])
        self.assertEqual([each.verb for each in shot.reservations], ['use', 'raise', 'must'])
        self.assertEqual((shot.links[0].low, shot.links[0].high), (-60, 0))
        survey = model.kind_named['survey'].alternatives[0]
        self.assertEqual([slot.bindings for slot in survey.slots], [{'frames': 'frames'}, {'frames': Operation('*', 'frames', 2)}])

    def test_offsets_are_the_earliest_times(self):
        model = read_model(SURVEY)
        self.assertEqual(model.offsets(model.kind_named['survey'], 0), [0, 3])

    def test_orders_that_cannot_hold_name_their_circle(self):
        model = read_model(SURVEY.replace('duration 40', 'duration 3'))
        kind = model.kind_named['survey']
        reasons = ' / '.join(edge.reason for edge in impossible_cycle(model, kind, kind.alternatives[0]))
        self.assertIn('parent (survey) lasts at most 3', reasons)
        self.assertIn('the start of b at least 2 after the end of a', reasons)

    def test_a_text_that_is_no_model_names_the_line(self):
        for wrong, line in (('horizon 9 lead', 'line 1'), ('horizon 9 lead 2\nkind a {\n}', 'line 3'), ('horizon 9\nlead 2 $', 'line 2'), ('', 'line 1')):
            with self.subTest(text=wrong), self.assertRaisesRegex(Failure, line):
                read_model(wrong)

    def test_the_title_is_the_first_sentence_of_the_first_comment(self):
        self.assertEqual(title_of('# An orbiter. With a camera.\nhorizon 3'), 'An orbiter')
        self.assertEqual(title_of('horizon 3 # no title\n'), '')

    def test_the_begin_line(self):
        for line, answer in (('begin', True), (' begin # now', True), ('begin begin', False), ('beginning', False), ('# begin', False)):
            self.assertEqual(is_begin(line), answer, line)
        self.assertEqual(split_at_begin('a\nbegin\nb'), ('a\n', ['b']))
        self.assertEqual(split_at_begin('a\nb'), ('a\nb', None))


class ExpressionTest(unittest.TestCase):
    EXPRESSION = Operation('-', Operation('*', 'n', 3), Operation('max', 'm', 2))

    def test_values(self):
        self.assertEqual(value(self.EXPRESSION, {'n': 4, 'm': 1}), 10)
        self.assertIsNone(value(self.EXPRESSION, {'n': 4}))
        self.assertEqual(value(Operation('min', 3, 5), {}), 3)

    def test_a_part_too_far_from_0_has_no_value(self):
        million = Operation('*', 'n', 'n')
        self.assertIsNone(value(Operation('-', Operation('*', million, million), 1), {'n': 10 ** 6}))
        self.assertEqual(value(Operation('*', million, 'n'), {'n': 10 ** 6}), 10 ** 18)

    def test_bounds_take_each_parameter_by_itself(self):
        self.assertEqual(bounds(Operation('-', 'n', 'n'), {'n': (1, 9)}), (-8, 8))
        self.assertEqual(bounds(Operation('*', 'n', 'm'), {'n': (-2, 3), 'm': (-5, 4)}), (-15, 12))

    def test_names_and_text(self):
        self.assertEqual(names(self.EXPRESSION), {'n', 'm'})
        self.assertEqual(text(self.EXPRESSION), '((n * 3) - max(m, 2))')

    def test_words_of_a_line(self):
        self.assertEqual(words('goal 1 obs 10 20 must n=3 # x'), ['goal', '1', 'obs', '10', '20', 'must', 'n', '=', '3'])


if __name__ == '__main__':
    unittest.main()
