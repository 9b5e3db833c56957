"""Pictures: the SVG, the page, the film, the terminal, clocks."""
import json
import re
import unittest
import xml.etree.ElementTree as tree

from support import camera_plan, plan_from
from test_world import FIX, MODEL
from lundocsef_tools.clock import Clock
from lundocsef_tools.drawing.picture import picture
from lundocsef_tools.drawing.view import View, default_range, packed, round_step
from lundocsef_tools.failure import Failure
from lundocsef_tools.film import chosen, film, frames
from lundocsef_tools.page import page
from lundocsef_tools.terminal import terminal

SVG = '{http://www.w3.org/2000/svg}'


def view_of(plan, **more):
    first, last = default_range(plan)
    return View(first, last, **more)


def wrong_plan():
    return plan_from(MODEL, 'in ok : tick 1', FIX % 'add shot 20', FIX % 'assign 1 0 6', FIX % 'add shot 22', FIX % 'assign 2 0 3', FIX % 'add heat 50')


def texts_of(svg):
    return [each.text for each in tree.fromstring(svg).iter(SVG + 'text')]


class PictureTest(unittest.TestCase):
    def test_all_lanes_of_the_camera_example(self):
        texts = texts_of(picture(camera_plan(), View(0, 200)))
        for label in ('goals', 'warm_up', 'shot', 'survey', 'downlink', 'power', 'memory', 'camera', 'rounds', 'now 130', 'committed to 190',
                      '3 shot (dropped)', 'told 40 (+40)', '#6 amount=20'):
            self.assertIn(label, texts)

    def test_what_is_wrong_is_flagged_and_told(self):
        texts = texts_of(picture(wrong_plan(), View(0, 100)))
        self.assertIn('over', texts)
        self.assertIn('from 20: power is in use more than there is from 20 to 25: 9, and the most is 5 (over)', texts)

    def test_hidden_names_are_not_drawn(self):
        texts = texts_of(picture(camera_plan(), View(0, 200, hidden={'memory', 'survey'})))
        self.assertNotIn('memory', texts)
        self.assertNotIn('survey', texts)

    def test_any_part_of_a_plan_can_be_drawn(self):
        for plan in (camera_plan(), camera_plan(1), camera_plan(3), wrong_plan()):
            for first, last in ((0, 1), (0, 1000), (50, 60), (900, 1000)):
                with self.subTest(first=first, last=last):
                    tree.fromstring(picture(plan, View(first, last)))

    def test_nothing_lies_outside_the_picture(self):
        root = tree.fromstring(picture(camera_plan(), View(0, 200)))
        for rect in root.iter(SVG + 'rect'):
            if rect.get('width') != '100%':
                self.assertLessEqual(float(rect.get('x', 0)) + float(rect.get('width')), 1200)

    def test_crowded_plans_keep_to_a_height(self):
        plan = plan_from(MODEL, 'in ok : tick 1', *[FIX % 'add shot 20' for _ in range(200)])
        root = tree.fromstring(picture(plan, View(0, 100)))
        self.assertLess(float(root.get('height')), 1500)
        self.assertIn('188 not shown', texts_of(picture(plan, View(0, 100))))


class PageTest(unittest.TestCase):
    def data(self, plan):
        text = page(plan, view_of(plan))
        return text, json.loads(re.search(r'const data = (\{.*\});', text).group(1).replace('<\\/', '</'))

    def test_the_story_of_an_activity_lists_its_lines_of_the_journal(self):
        plan = camera_plan()
        text, data = self.data(plan)
        self.assertIn('data-id="4"', text)
        story = next(each['story'] for each in data['activities'] if each['id'] == 4)
        self.assertEqual(story, [plan.lines[number] for number in (7, 9, 30)])

    def test_values_are_those_of_the_plan(self):
        plan = camera_plan()
        _, data = self.data(plan)
        memory = next(line for line in data['lines'] if line['name'] == 'memory')
        self.assertEqual(dict(zip(memory['moments'], memory['values'])), {0: 0, 60: 40, 81: 42, 83: 46, 108: 62, 170: 42})

    def test_no_text_of_a_message_can_end_the_script(self):
        plan = plan_from(MODEL, 'in ok : goal 1 shot 5 9 must # </script><b>', 'fix 9 open-goal 1 0 5 9 by add shot 5 goal 1 : ok')
        text, data = self.data(plan)
        self.assertEqual(text.count('</script>'), 1)
        self.assertIn('</script><b>', data['activities'][0]['story'][0])


class StrangeBytesTest(unittest.TestCase):
    """A message may hold any bytes in its comment, and the journal shows them."""
    PLAN = ['in ok : tick 1 # \x00\x1b[2J\xc3\xa9 @DATA@ @PICTURE@ <&>', 'rest clear', 'close']

    def test_pictures_pages_and_films_stay_whole(self):
        plan = plan_from(MODEL, *self.PLAN)
        tree.fromstring(picture(plan, View(0, 9)))
        text = page(plan, view_of(plan))
        self.assertIn('\u00e9 @DATA@ @PICTURE@ &lt;&amp;&gt;', text)
        self.assertEqual(text.count('<svg '), 1)
        self.assertNotIn('\x1b', text)
        self.assertIn('@PICTURE@', film(plan, view_of(plan), 9))


class FilmTest(unittest.TestCase):
    def test_a_frame_for_each_round(self):
        plan = camera_plan()
        found = frames(plan, view_of(plan), 200)
        self.assertEqual(len(found), 9)
        self.assertEqual(found[0]['message'], plan.lines[1])
        self.assertEqual(found[0]['entries'][-1], '6 close')
        self.assertIn('const frames = [', film(plan, view_of(plan), 2))

    def test_of_many_rounds_some_are_chosen_evenly(self):
        self.assertEqual(chosen(list(range(100)), 4), [0, 33, 66, 99])
        self.assertEqual(chosen([3, 5], 4), [3, 5])
        self.assertEqual(chosen([3, 5], 1), [5])


class TerminalTest(unittest.TestCase):
    def test_the_camera_example(self):
        text = terminal(camera_plan(), View(0, 200), 83)
        rows = {line[:22].strip(): line[23:] for line in text.splitlines()}
        self.assertLessEqual(max(len(line) for line in text.splitlines()[2:]), 85)
        self.assertEqual(rows['downlink'].index('#6'), 39)
        self.assertIn('survey', rows)
        self.assertEqual(rows['camera (o w n)'][20:25], 'nnnnn')

    def test_what_is_wrong_is_marked(self):
        text = terminal(wrong_plan(), View(0, 100), 100)
        self.assertIn('!', text.split('\npower ')[1].splitlines()[0])
        self.assertIn('from 20: power is in use more than there is', text)


class ClockTest(unittest.TestCase):
    def test_labels(self):
        clock = Clock(10, '06:00')
        self.assertEqual([clock.label(moment) for moment in (0, 6, 90, 6480, 15120)], ['06:00:00', '06:01:00', '06:15:00', '00:00:00+1', '00:00:00+2'])
        self.assertEqual(Clock(60, '2026-11-29T06:00Z').label(1440), '30 Nov 06:00')

    def test_ticks_stand_at_round_times(self):
        clock = Clock(60, '06:07')
        moments, seconds = clock.ticks(0, 240, 4)
        self.assertEqual([clock.label(moment) for moment in moments], ['07:00', '08:00', '09:00', '10:00'])
        self.assertFalse(seconds)

    def test_no_time(self):
        for text in ('6', '25:00', 'noon', '2026-13-01'):
            with self.subTest(text=text), self.assertRaises(Failure):
                Clock(1, text)


class LayoutTest(unittest.TestCase):
    def test_packed_takes_the_first_row_with_room(self):
        self.assertEqual(packed([(0, 5, 'a'), (3, 9, 'b'), (5, 6, 'c'), (9, 12, 'd')]), [['a', 'c', 'd'], ['b']])

    def test_round_steps(self):
        self.assertEqual([round_step(span, 10) for span in (5, 100, 1000, 3060, 79000)], [1, 10, 100, 500, 10000])


if __name__ == '__main__':
    unittest.main()
