"""Questions in the words of newcomers are answered: a place that answers one is among the first three answers. Those that bin/find knows
(tools/atlas/questions) are nearly all answered, and of those that it doesn't know (the file questions beside this test) most are."""
import unittest

from atlas.asked import KNOWN, answers_at, by_file, known_questions, questions
from atlas.grouping import grouped
from atlas.index import Index, answers
from atlas.sources import Sources

UNKNOWN = "tools/atlas/tests/questions"
# How many answers a reader looks at.
FIRST = 3
# Of so many known questions one is asked, since all take minutes; how many of these may stay unanswered, because others are like them; and
# how many unknown ones are answered at least.
EACH, LEFT, ANSWERED = 12, 2, 74
# How many answers a place names at most: one that names more says too little.
MOST_AT_PLACE = 10


class Questions(unittest.TestCase):
    @classmethod
    def setUpClass(cls):
        cls.index = Index.of(list(answers(Sources())))
        known = known_questions(cls.index.answers)
        cls.index.learn(known)
        cls.code = cls.index.of_code().learn(known)
        cls.files = by_file(cls.index.answers)

    def missed(self, path, each=1):
        """Returns the questions of a file that aren't answered, of so many one."""
        found = []
        for words, places, is_code in list(questions(path))[::each]:
            right = {it.number for place in places for it in answers_at(self.files, place)}
            first = grouped((self.code if is_code else self.index).search(words))[:FIRST]
            found += [] if any(it.number in right for group in first for it in group.shown) else [" ".join(words)]
        return found

    def test_places_are_there(self):
        for path in (KNOWN, UNKNOWN):
            for words, places, _ in questions(path):
                for place in places:
                    there = {it.number for it in answers_at(self.files, place)}
                    self.assertTrue(0 < len(there) <= MOST_AT_PLACE, f"{path}: {words}: {place}: {len(there)}")

    def test_no_question_is_known_twice(self):
        every = [" ".join(words) for path in (KNOWN, UNKNOWN) for words, _, is_code in questions(path) if not is_code]
        self.assertEqual(len(every), len(set(every)))

    def test_known_questions_are_answered(self):
        self.assertLessEqual(len(missed := self.missed(KNOWN, EACH)), LEFT, missed)

    def test_unknown_questions_are_answered(self):
        asked = len(list(questions(UNKNOWN)))
        self.assertGreaterEqual(asked - len(missed := self.missed(UNKNOWN)), ANSWERED, missed)


if __name__ == "__main__":
    unittest.main()
