"""Pages of the manual, and the grammars for editors."""
import json
import os
import re
import tempfile
import unittest

from support import TOOLS, program, run
from lundocsef_tools.commands import man_pages
from lundocsef_tools.journal import CODES
from lundocsef_tools.manual import body, inline, without_sections
from lundocsef_tools.program import call
from lundocsef_tools.refusals import REASONS
from lundocsef_tools.tokens import RESERVED


class ManualTest(unittest.TestCase):
    def test_inline(self):
        self.assertEqual(inline('a `b -c` *d* **e** [f](g.md)'), 'a \\fBb \\-c\\fR \\fId\\fR \\fBe\\fR f')
        self.assertEqual(inline('.dot'), '\\&.dot')
        self.assertEqual(inline('`a * b` and 2 * 3 * 4'), '\\fBa * b\\fR and 2 * 3 * 4')

    def test_blocks(self):
        text = '# T\n\ntext\n\n```\n.x \\y\n```\n\n## Part\n\n| A | B |\n|---|---|\n| `a|b` | one |\n\n- item\n  more\n- two\n'
        self.assertEqual(body(text), ['.SH DESCRIPTION', '.PP', 'text', '.PP', '.RS 4', '.nf', '\\&.x \\ey', '.fi', '.RE', '.SH PART',
                                      '.TP', '\\fBa|b\\fR', 'one', '.IP \\(bu 4', 'item more', '.IP \\(bu 4', 'two'])

    def test_sections_can_be_left_out(self):
        self.assertEqual(without_sections('# A\nb\n## The crates\nc\n### d\n## E\nf', ('crate',)), '# A\nb\n## E\nf')

    def test_the_pages_are_made_of_the_docs_as_they_stand(self):
        with tempfile.TemporaryDirectory() as folder:
            self.assertEqual(run(man_pages.main, folder), (0, ''))
            for name, section, about, _ in man_pages.PAGES:
                with open(os.path.join(folder, 'man%d' % section, '%s.%d' % (name, section)), encoding='utf-8') as file:
                    text = file.read()
                self.assertTrue(text.startswith('.TH "%s" %d' % (name.upper(), section)))
                self.assertIn(about, text)
                lines = text.split('\n')
                self.assertEqual(lines.count('.nf'), lines.count('.fi'))
                self.assertEqual(lines.count('.RS 4'), lines.count('.RE'))
                self.assertNotIn('```', text)
                self.assertNotRegex(text, r'(?m)^\|')

    def test_the_forms_of_the_program(self):
        self.assertEqual(call(program(), [], '')[1], 'usage: %s\n' % ' | '.join(man_pages.FORMS))


class GrammarTest(unittest.TestCase):
    def setUp(self):
        with open(os.path.join(TOOLS, 'syntax', 'vim', 'syntax', 'lundocsef.vim'), encoding='utf-8') as file:
            self.vim = file.read()
        with open(os.path.join(TOOLS, 'syntax', 'vscode', 'lundocsef.tmLanguage.json'), encoding='utf-8') as file:
            self.textmate = file.read()

    def test_every_word_is_known_to_both(self):
        for word in RESERVED + CODES + list(REASONS) + ['goal', 'tele', 'tick', 'until', 'halt', 'may', 'fix', 'rest', 'commit', 'dispatch', 'close']:
            for grammar in (self.vim, self.textmate):
                self.assertRegex(grammar, r'(?<![\w-])%s(?![\w-])' % re.escape(word))

    def test_the_textmate_grammar_is_whole(self):
        grammar = json.loads(self.textmate)
        for pattern in grammar['patterns']:
            self.assertIn(pattern['include'][1:], grammar['repository'])
        for rule in re.findall(r'"(?:match|begin|end)": ("(?:[^"\\]|\\.)*")', self.textmate):
            re.compile(json.loads(rule).replace('(?<=\\bin |\\brest )', ''))         # editors allow what Python's `re` does not

    def test_the_docs_reserve_the_same_words(self):
        with open(os.path.join(os.path.dirname(TOOLS), 'docs', 'MODEL.md'), encoding='utf-8') as file:
            blocks = re.findall(r'```[^\n]*\n(.*?)```', file.read(), re.S)
        self.assertTrue(any(sorted(block.split()) == sorted(RESERVED) for block in blocks))


if __name__ == '__main__':
    unittest.main()
