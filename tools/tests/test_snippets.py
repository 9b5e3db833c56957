"""How snippets of the docs are marked, run and compared."""
import os
import tempfile
import unittest

from support import TOOLS, program
from snippets import blocks_of, fits, run_document

DOCUMENT = '''# A page

```lundocsef run=8
kind obs { duration 5 }
begin
goal 1 obs 10 20 must
```

```journal
2 fix 20 open-goal 1 0 10 20 by add obs 10 goal 1 : ok
5 close
```

```report
goal 1 obs 10 20 must served 1
```

```lundocsef check=fault
kind obs { duration }
```

```fault
model: unexpected at 42
```

```lundocsef file=m.txt
horizon 100 lead 10 kind obs { duration 5 }
```

```console run
$ lundocsef-x check m.txt
model ok: timelines 0 kinds 1
$ lundocsef nothing
...
(status 2)
```

```
this one is not run
```
'''


class SnippetsTest(unittest.TestCase):
    def results(self, text):
        with tempfile.TemporaryDirectory() as folder:
            path = os.path.join(folder, 'PAGE.md')
            with open(path, 'w', encoding='utf-8') as file:
                file.write(text)
            return dict(run_document(path, program(), TOOLS))

    def test_a_page_whose_snippets_are_right(self):
        results = self.results(DOCUMENT)
        self.assertEqual(list(results), ['PAGE.md:%d' % line for line in (3, 9, 14, 18, 22, 26, 30)])
        self.assertEqual(set(results.values()), {None})

    def test_wrong_snippets_are_found(self):
        for old, new, line in (('2 fix 20', '2 fix 21', 9), ('served 1', 'open', 14), ('duration }', 'duration 5 }', 18), ('at 42', 'at 43', 22),
                               ('kinds 1', 'kinds 2', 30), ('kind obs { duration 5 }\nbegin', 'kind obs { }\nbegin', 3)):
            with self.subTest(new=new):
                self.assertIsNotNone(self.results(DOCUMENT.replace(old, new))['PAGE.md:%d' % line])

    def test_blocks_within_lists(self):
        block = blocks_of('- text\n\n  ```lundocsef run=4 lead=5\n  kind a { duration 5 }\n  ```\n')[0]
        self.assertEqual((block.language, block.options, block.text), ('lundocsef', {'run': '4', 'lead': '5'}, 'kind a { duration 5 }\n'))

    def test_dots_stand_for_any_lines(self):
        self.assertTrue(fits(['a', '...', 'c'], ['a', 'b', 'b', 'c']))
        self.assertTrue(fits(['...'], []))
        self.assertFalse(fits(['a'], ['a', 'b']))
        self.assertFalse(fits([], ['a']))


if __name__ == '__main__':
    unittest.main()
