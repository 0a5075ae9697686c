"""Several parts of one file are one answer."""
import unittest

from atlas.grouping import grouped
from atlas.index import Answer
from atlas.parts import Part


def found(page, line, score):
    """Returns an answer of a page with this score."""
    it = Answer("page", Part(page, line, "Keys", "", "A door has a key."), 1, [])
    it.score = score
    return it


class Groups(unittest.TestCase):
    def test_the_parts_of_a_page_are_one_answer(self):
        key, door, lock, nail = found("docs/KEYS.md", 9, 8), found("docs/DOORS.md", 3, 7), found("docs/KEYS.md", 11, 6), found("docs/KEYS.md", 12, 1)
        groups = grouped([key, door, lock, nail])
        self.assertEqual([it.answers for it in groups], [[key, lock, nail], [door]])
        # A part that fits far less than the first isn't shown.
        self.assertEqual(groups[0].shown, [key, lock])


if __name__ == "__main__":
    unittest.main()
