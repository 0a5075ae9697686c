"""A file of planted bugs is read octet by octet, and what isn't in its form is refused with its line."""
import unittest

from atlas.planted import Misread, bugs_in, home_of

BUGS = """# a label may stand twice
gate: each
file: src/labels.rt
refused at: bpf_asm::labels::Labels::put
old:     Ok(before.is_none())
new:     Ok(true)

# all is lost
file: src/labels.rt
old: fn put(&mut self) {
old:
old:     self.names.push(name);
new: fn put(&mut self) {
old:  \t
new:
file: specs/Labels.antt
old: : 1
new: # 2
"""


def fault_of(text, home="labels.edits"):
    """Returns why a text is refused."""
    try:
        bugs_in(text, home, "bugs/labels.edits")
    except Misread as misread:
        return str(misread).removeprefix("bugs/labels.edits:")
    return ""


class Reading(unittest.TestCase):
    def test_keys(self):
        first, second = bugs_in(BUGS, "labels.edits", "labels.edits")
        self.assertEqual((first.name, first.line, first.is_each, first.refused_at), ("a-label-may-stand-twice", 1, True, "bpf_asm::labels::Labels::put"))
        self.assertEqual((second.name, second.line, second.is_each, second.refused_at), ("all-is-lost", 8, False, ""))

    def test_every_octet_of_a_text(self):
        first, second = bugs_in(BUGS, "labels.edits", "labels.edits")
        self.assertEqual(first.pairs, [("src/labels.rt", "    Ok(before.is_none())", "    Ok(true)")])
        self.assertEqual(second.pairs, [
            ("src/labels.rt", "fn put(&mut self) {\n\n    self.names.push(name);", "fn put(&mut self) {"),
            ("src/labels.rt", " \t", ""),
            ("specs/Labels.antt", ": 1", "# 2"),
        ])

    def test_homes(self):
        self.assertEqual([home_of(it) for it in ("src/lib.rt", "src/hidden/card.rt", "specs/Labels.antt")], ["lib.edits", "hidden/card.edits", "Labels.edits"])


class Refusals(unittest.TestCase):
    def test_headings(self):
        self.assertRegex(fault_of("file: src/labels.rt\n"), "^1: a bug begins with a heading")
        self.assertRegex(fault_of("# A label may stand twice\n"), "^1: a bug begins with a heading")
        self.assertRegex(fault_of("# a bug\nfile: src/labels.rt\nold: 1\nnew: 2\n\n# a bug\n"), "^6: an earlier bug")
        self.assertRegex(fault_of("# a bug"), "^1: the last line doesn't end")

    def test_lines_without_a_key(self):
        for line in ("    more of it", "Old: 1", "old:1", "note: a bug"):
            self.assertRegex(fault_of(f"# a bug\nfile: src/labels.rt\nold: 1\n{line}\n"), "^4: a line of a bug is")

    def test_words(self):
        self.assertRegex(fault_of("# a bug\ngate: often\n"), "^2: `gate:` comes once")
        self.assertRegex(fault_of("# a bug\ngate: each\ngate: each\n"), "^3: `gate:` comes once")
        self.assertRegex(fault_of("# a bug\nfile: src/labels.rt \n"), "^2: `file:` is followed by")

    def test_pairs(self):
        head = "# a bug\nfile: src/labels.rt\n"
        self.assertRegex(fault_of("# a bug\nold: 1\n"), "^2: no line `file:`")
        self.assertRegex(fault_of(head + "new: 1\n"), "^3: `new:` is below no `old:`")
        self.assertRegex(fault_of(head + "old: 1\nfile: src/labels.rt\n"), "^4: `old:` is followed by `new:`")
        self.assertRegex(fault_of(head + "old: 1\nnew: 1\n"), "^5: the pair above changes nothing")
        self.assertRegex(fault_of(head), "^3: the bug ends without")
        self.assertRegex(fault_of(head + "old: 1\n"), "^4: the bug ends without")
        self.assertRegex(fault_of(head + "old: 1\nnew: 2\n", "lexer.edits"), "^5: a bug of src/labels.rt belongs into bugs/labels.edits")


if __name__ == "__main__":
    unittest.main()
