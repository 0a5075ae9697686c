"""Words of questions and of texts meet, whatever their form."""
import marshal
import unittest

from atlas.index import Answer, Index, titled
from atlas.parts import Part
from atlas.words import meanings_of, names_in, stem, stems_of, words_of


class Words(unittest.TestCase):
    def test_names_are_taken_apart(self):
        self.assertEqual(words_of("each_judgedCell-is"), ["each", "judged", "cell", "is"])
        self.assertEqual(words_of("UPC_NO_ROOM NoConnection"), ["upc", "no", "room", "no", "connection"])

    def test_a_kind_of_contract_is_one_word(self):
        self.assertEqual(words_of("VBR.1 and vbr1."), ["vbr1", "and", "vbr1"])

    def test_a_name_of_code_is_one_word(self):
        self.assertEqual(names_in("TooFast or upc_card_new, --every pcap of VBR.1"), ("toofast", "upccardnew", "--every"))

    def test_endings_do_not_matter(self):
        for words in (("divides", "divide"), ("released", "release", "releases"), ("dropping", "dropped", "drop"), ("entries", "entry"), ("faster", "fast"), ("isolated", "isolation", "isolates"), ("exceeded", "exceed")):
            self.assertEqual(len({stem(it) for it in words}), 1, words)

    def test_words_that_tell_nothing(self):
        self.assertEqual(meanings_of(["what", "is", "a", "verdict"]), [[("verdict",)]])
        self.assertEqual(meanings_of(["what"]), [[("what",)]])

    def test_words_of_others(self):
        (meanings,) = meanings_of(["packets"])
        self.assertEqual(meanings, [("packet",), ("cell",)])

    def test_forms_of_a_verb_are_one_word(self):
        for words in (("sent", "sends", "sending"), ("lost", "lose", "loses"), ("written", "wrote", "writes"), ("found", "find")):
            self.assertEqual(len({stem(it) for it in words}), 1, words)

    def test_phrases(self):
        self.assertEqual(stems_of("It says how many cells came."), stems_of("It says number of cells came."))
        self.assertEqual(meanings_of("find out how many bits".split()), meanings_of("number of bits".split()))

    def test_a_place_in_the_files_of_the_one_who_asks_tells_nothing(self):
        self.assertEqual(meanings_of("a fault in line 12".split()), meanings_of("a fault in line".split()))

    def test_a_phrase_of_others_is_met_with_its_small_words(self):
        self.assertEqual(meanings_of(["link"]), [[("link",)]])
        (meanings,) = meanings_of("link with".split())
        self.assertIn(("pkg", "config"), meanings)

    def test_words_of_others_are_met_in_any_order(self):
        for question in ("it runs out of memory", "the memory runs out"):
            (meanings,) = meanings_of(question.split())
            self.assertIn(("alloc", "fail"), meanings)


class Answers(unittest.TestCase):
    def test_a_name_counts_for_more(self):
        it = Answer("definition", None, 1, [(3, "is_judged"), (2, "The cell is judged.")])
        self.assertEqual((it.words["judg"], it.words["cell"], it.length), (5, 2, 14))

    def test_a_title_counts_as_far_as_it_was_asked_for(self):
        asked = meanings_of(["the", "crates"])
        self.assertEqual(titled(("crat",), asked), 1)
        self.assertEqual(titled(("crat", "libr"), asked), 0.5)
        self.assertEqual(titled((), asked), 0)

    def test_what_is_kept_answers_as_what_was_made(self):
        parts = [Part("docs/DOORS.md", line, heading, "", text) for line, heading, text in ((3, "Doors", "A door has a key."), (9, "Keys", "A key is lost."), (11, "Keys", "Keys are many."))]
        made = Index.of([Answer("page", it, 1, [(2, it.text), (1, it.heading)]) for it in parts])
        again = Index.of_kept(marshal.loads(marshal.dumps(made.kept)))
        for words in (["key"], ["how", "many", "keys"], ["lost", "door"]):
            self.assertEqual([(it.number, it.score) for it in made.search(words)], [(it.number, it.score) for it in again.search(words)])
        self.assertEqual([it.it for it in made.search(["lost"])], [parts[1]])


if __name__ == "__main__":
    unittest.main()
