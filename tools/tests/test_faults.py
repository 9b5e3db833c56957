"""Faults of models: the program's line, the place, and the cause that is guessed."""
import unittest

from support import program
from lundocsef_tools.faults import explain, nearest, place
from lundocsef_tools.program import call

HEAD = 'horizon 100 lead 10\n'
# a model, the program's fault, and what the explanation has to hold
FAULTS = (
    ('horizon 100\nlead 5\ncapasity power 4\n', 'model: unexpected at 19', ('m:3:1', 'did you mean `capacity`?')),
    (HEAD + 'kind a { duration 5\nkind b { duration 2 }\n', 'model: unexpected at 40', ('m:3:1', 'the } of the kind `a` is missing')),
    (HEAD + 'kind a { duration 5\n', 'model: unexpected at 40', ('m:2:20', 'a } is missing')),
    (HEAD + 'level bat 0 10.5 3\n', 'model: bad byte at 34', ('m:2:15', 'numbers are whole')),
    (HEAD + 'kind warm-up { duration 5 }\n', 'model: unexpected at 29', ('m:2:10', '`warm-...` is none')),
    (HEAD + 'capacity p 3 kind a { use p 1 duration 5 }\n', 'model: unexpected at 42', ('the parameters come first, then `duration`',)),
    (HEAD + 'level b 0 9 3 kind a { duration 5 raise b 3 }\n', 'model: unexpected at 64', ('`at start` or `at end` is missing',)),
    (HEAD + 'state start { off on } start off any\n', 'model: unexpected at 26', ('`start` is a reserved word',)),
    (HEAD + 'goal 1 a 2 3 must\n', 'model: unexpected at 20', ('`goal` begins a message',)),
    (HEAD + 'kind a { param n 1 9 }\n', 'model: unexpected at 41', ('each kind has a `duration`',)),
    ('lead 5\n', 'model: unexpected at 0', ('a model begins with `horizon NUMBER',)),
    (HEAD + 'capacity power 4 kind a { duration 5 use pover 2 }\n', 'model: unknown name: pover', ('m:2:42', 'did you mean `power`?')),
    (HEAD + 'state cam { off on } start off any state att { sun nadir } start sun any kind a { duration 5 must cam nadir }\n',
     'model: unknown name: nadir', ('cam has no state nadir, but off, on',)),
    (HEAD + 'kind b { param n 1 9 default 1 param m 1 9 = n duration 5 } kind a { duration 9 alternative { slot x b ( m = 3 ) } }\n',
     'model: unknown name: m', ('m of b follows from others',)),
    (HEAD + 'kind a { duration n }\n', 'model: unknown name: n', ('m:2:19', 'has no parameter n')),
    (HEAD + 'level a 0 9 3 kind k { duration 5 use a 2 }\n', 'model: unknown name: a', ('`use` wants the name of a capacity, and a is a level',)),
    (HEAD + 'kind a { duration 5 } kind a { duration 6 }\n', 'model: name twice: a', ('m:2:28', 'this name is taken')),
    (HEAD + 'kind a { param n 1 8 default 10 duration 5 }\n', 'model: out of range: param', ('m:2', 'the default 10 is not from 1 to 8')),
    ('horizon 100 lead 200\n', 'model: out of range: lead', ('lead 200 is not from 1 to the horizon, 100',)),
    (HEAD + 'kind a { duration 5 link start a end 60 0 }\n', 'model: out of range: link', ('60 to 0 is the wrong way round; `0 60`?',)),
    (HEAD + 'kind a { param n 0 9 duration n - 9 }\n', 'model: out of range: duration', ('-9 at least and 0 at most',)),
    (HEAD + 'level b 9 3 4\n', 'model: out of range: level', ('its least, 9, is above its most, 3',)),
    (HEAD + 'kind a { param n 1 9 = m param m 1 9 = n duration 5 }\n', 'model: circular: kind a, parameter n', ('n depends on m depends on n',)),
    (HEAD + 'kind a { duration 5 alternative { slot x b } } kind b { duration 5 alternative { slot y a } }\n',
     'model: recursive: kind a', ('a contains b contains a',)),
    (HEAD + 'kind b { duration 8 } kind a { duration 9 alternative { slot x b slot y b order x end y start 0 3 order y end parent end 0 9 } }\n',
     'model: no schedule: kind a, alternative 0', ('these cannot hold together:', 'x (b) lasts at least 8', 'parent (a) lasts at most 9')),
    (HEAD + 'state s { ' + ' '.join('s%d' % n for n in range(33)) + ' } start s0 any\n', 'model: too many: states', ('state s has 33 states',)),
)


class FaultsTest(unittest.TestCase):
    def test_each_fault_is_explained(self):
        for text, fault, wanted in FAULTS:
            with self.subTest(fault=fault, text=text):
                found = '\n'.join(explain('m', text, fault))
                for words in wanted:
                    self.assertIn(words, found)

    def test_the_program_says_these_faults(self):
        path = program()
        for text, fault, _ in FAULTS:
            with self.subTest(fault=fault, text=text):
                self.assertEqual(call(path, ['check'], text + 'begin\n'), (3, fault + '\n'))

    def test_the_caret_stands_below_the_place(self):
        lines = place('m', 'one\n\ttwo three\n', 9, 'why')
        self.assertEqual(lines[0], 'm:2:6: why')
        self.assertEqual(lines[1][lines[2].index('^'):], 'three')

    def test_a_long_line_is_shown_around_the_place(self):
        text = 'a ' * 400 + 'here ' + 'b ' * 400
        lines = place('m', text, 800, 'why')
        self.assertLess(len(lines[1]), 140)
        self.assertEqual(lines[1][lines[2].index('^'):][:4], 'here')

    def test_a_word_far_from_all_others_suggests_nothing(self):
        self.assertIsNone(nearest('xyz', ['capacity', 'level']))
        self.assertEqual(nearest('levle', ['capacity', 'level']), 'level')


if __name__ == '__main__':
    unittest.main()
