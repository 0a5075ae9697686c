"""Tests of the checks."""
import unittest
from types import SimpleNamespace

from atlas.checks import anchors_of, differing, drawn, is_named, layers_of, meant, rising, twice
from atlas.functions import Function


def specs(**modules):
    """Sources with these modules, each with definitions of these names."""
    made = {}
    for module, names in modules.items():
        made[module] = SimpleNamespace(path=module, definitions={it: SimpleNamespace(name=it, line=1) for it in names})
    return SimpleNamespace(specs=SimpleNamespace(modules=made))


class OneMeaning(unittest.TestCase):
    def test_names_that_differ(self):
        self.assertEqual(list(meant(specs(one=["IsRun"], other=["IsJournalRun"]))), [])

    def test_a_name_twice(self):
        self.assertEqual(list(meant(specs(one=["IsRun"], other=["IsRun"]))), ["one:1: IsRun is also defined in other:1"])


class RefusedAt(unittest.TestCase):
    CRATES = ("doors", "keys")

    def test_a_free_function(self):
        close = Function("doors", "", 1, "hinge", "", "", "close")
        for path, named in (("hinge::close", True), ("doors::hinge::close", True), ("keys::hinge::close", False), ("lock::close", False)):
            self.assertEqual(is_named(path, close, self.CRATES), named, path)

    def test_a_method(self):
        close = Function("doors", "", 1, "hinge", "Door", "Drop", "close")
        for path, named in (("Door::close", True), ("doors::door::DoorDrop::close", True), ("keys::door::Door::close", False), ("doors::Lock::close", False)):
            self.assertEqual(is_named(path, close, self.CRATES), named, path)


class Anchors(unittest.TestCase):
    def test_headings(self):
        self.assertEqual(anchors_of("# The `upc` gate\ntext\n## A jump, if not\n"), {"the-upc-gate", "a-jump-if-not"})


LAYERS = "# Layer text: lines\ntext_io: memchr\n# Layer base: instructions\nbpf_code: byteorder\nbpf_asm: bpf_code text_io\n"
TABLE = "| Layer | Crate | What |\n|---|---|---|\n| base | `bpf_asm` | x |\n| | `bpf_code` | x |\n| text | `text_io` | x |\n"


class Layers(unittest.TestCase):
    def test_arrows_that_go_down(self):
        self.assertEqual(list(rising(layers_of(LAYERS))), [])

    def test_an_arrow_that_goes_up(self):
        wrong = layers_of(LAYERS.replace("text_io: memchr", "text_io: memchr bpf_asm"))
        self.assertEqual(list(rising(wrong)), ["crates.txt: text_io of layer text uses bpf_asm, which comes after it, in layer base"])

    def test_an_arrow_to_a_later_crate_of_the_layer(self):
        wrong = layers_of(LAYERS.replace("bpf_code: byteorder", "bpf_code: bpf_asm"))
        self.assertEqual(list(rising(wrong)), ["crates.txt: bpf_code of layer base uses bpf_asm, which comes after it"])

    def test_a_table_like_the_list(self):
        self.assertEqual(list(drawn(layers_of(LAYERS), TABLE)), [])

    def test_a_table_with_another_layer(self):
        other = TABLE.replace("| base | `bpf_asm` | x |\n| | `bpf_code` | x |\n", "| base | `bpf_asm` | x |\n").replace("text |", "words |")
        wrong = list(drawn(layers_of(LAYERS), other))
        self.assertIn("docs/ARCHITECTURE.md: the table lacks bpf_code in layer base", wrong)
        self.assertIn("docs/ARCHITECTURE.md: the table has text_io in layer words, and crates.txt hasn't", wrong)
        self.assertEqual(len(wrong), 4)


class ProvedOnce(unittest.TestCase):
    LAYERS = [("base", [("leaky", [])]), ("tests", [("line_tests", ["leaky"])])]

    def test_tests_in_a_crate_of_tests(self):
        texts = {"leaky": {"crates/leaky/src/lib.rt": "fn f() {}\n"}, "line_tests": {"crates/line_tests/src/tests.rt": "#[test]\nfn t() {}\n"}}
        self.assertEqual(list(twice(self.LAYERS, texts)), [])

    def test_tests_in_another_crate(self):
        texts = {"leaky": {"crates/leaky/src/tests.rt": "#[test]\nfn t() {}\n"}}
        wrong = ["crates/leaky/src/tests.rt: it has tests, so leaky is proved twice; they belong in a crate of the layer tests"]
        self.assertEqual(list(twice(self.LAYERS, texts)), wrong)


class Packages(unittest.TestCase):
    def test_each_is_listed_and_asked_for(self):
        self.assertEqual(list(differing({("mandoc", "tests/manual")}, {("mandoc", "tests/manual")})), [])

    def test_one_for_another_check(self):
        wrong = ["tests/pages: tools/packages doesn't list mandoc for it", "tools/packages: tests/manual doesn't ask for mandoc"]
        self.assertEqual(list(differing({("mandoc", "tests/manual")}, {("mandoc", "tests/pages")})), wrong)


if __name__ == "__main__":
    unittest.main()
