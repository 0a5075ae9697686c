"""What bin/find learns of questions that were asked before."""
import unittest

from atlas.asked import answers_at, by_file
from atlas.index import Answer, Index
from atlas.parts import Part


def index_of(*texts):
    """Returns an index of parts of a page with these texts, and its answers."""
    answers = [Answer("page", Part("docs/X.md", k, "", f"row {k}", text), 1, [(1, text)]) for k, text in enumerate(texts)]
    return Index.of(answers), answers


class Asked(unittest.TestCase):
    def test_a_question_that_was_asked_is_answered(self):
        index, (ships, trains) = index_of("Ships go by sea.", "Trains go by rail.")
        index.learn([("how do I ride a locomotive".split(), [trains]), ("what floats".split(), [ships])])
        self.assertIs(index.search("ride a locomotive".split())[0], trains)
        self.assertIs(index.search("what floats".split())[0], ships)

    def test_words_lead_to_the_words_of_their_places(self):
        index, (first, *_, last) = index_of("A planted bug is refused.", "Ships go.", "Trains go.", "Each planted bug has a name.")
        self.assertEqual(index.search(["gremlin"]), [])
        index.learn([(["gremlin"], [first])])
        self.assertIn("plant", [stem for _, stem in index.asked.learned["gremlin"]])
        self.assertEqual([it.name for it in index.search(["gremlin"])][0], first.name)
        self.assertIn(last, index.scored(index.meanings(["gremlin"]), {}, ()).values())

    def test_what_is_kept_is_the_same(self):
        index, (first, _) = index_of("A planted bug is refused.", "Ships go.")
        index.learn([(["gremlin"], [first])])
        self.assertEqual(Index.of_kept(index.kept).search(["gremlin"])[0].name, first.name)

    def test_a_name_is_a_place_before_words_of_a_text_are(self):
        _, answers = index_of("This is about row 1.", "That is not.")
        self.assertEqual(answers_at(by_file(answers), ("docs/X.md", "row 1")), [answers[1]])
        self.assertEqual(answers_at(by_file(answers), ("docs/X.md", "about row")), [answers[0]])


if __name__ == "__main__":
    unittest.main()
