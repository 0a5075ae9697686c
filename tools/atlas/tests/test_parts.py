"""Pages and the header for C are taken apart."""
import re
import unittest

from atlas.files import text_of
from atlas.parts import HEADER, header_parts, parts_of

PAGE = """# Doors

A door is **open**, or it is shut. See [Door](../specs/Door.antt):

| Word | Effect | Fault |
|---|---|---|
| `open` | opens it | 1 Locked |
| `shut` | shuts it | |

- It has a key.
- Two of them
  are lost.

## Locks

The form is: <!-- not run: a form -->

    lock = key

More is said elsewhere.
"""


class Pages(unittest.TestCase):
    def setUp(self):
        self.parts = list(parts_of("docs/DOORS.md", PAGE))

    def test_parts(self):
        self.assertEqual([(it.line, it.heading, it.name, it.text) for it in self.parts], [
            (3, "Doors", "", "A door is open, or it is shut. See Door:"),
            (7, "Doors", "open", "Effect: opens it; Fault: 1 Locked"),
            (8, "Doors", "shut", "Effect: shuts it"),
            (10, "Doors", "", "- It has a key."),
            (11, "Doors", "", "- Two of them are lost."),
            (16, "Locks", "", "The form is: lock = key"),
            (20, "Locks", "", "More is said elsewhere."),
        ])

    def test_sentences(self):
        self.assertEqual(self.parts[0].sentences, ["A door is open, or it is shut.", "See Door:"])
        self.assertEqual(self.parts[1].about, "Word A door is open, or it is shut. See Door:")


class Header(unittest.TestCase):
    def test_every_call_type_and_constant_with_a_comment(self):
        text = text_of(HEADER)
        names = set(re.findall(r"^(?:uint32_t|void|const char) \*?(upc_\w+)\(", text, re.M))
        names |= set(re.findall(r"^} (upc_\w+);", text, re.M)) | set(re.findall(r"(UPC_\w+) = \d+,? +/\*", text))
        found = {it.name: it for it in header_parts()}
        self.assertEqual(names - set(found), set())
        self.assertEqual([it for it in names if not found[it].text], [])


if __name__ == "__main__":
    unittest.main()
