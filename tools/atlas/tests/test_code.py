"""Tests of what of a source counts."""
import unittest

from ..code import code_of, statement_of

SOURCE = '''//! A part.

/// Returns whether a text begins with two strokes.
pub fn is_remark(text: &[u8]) -> bool
    // Of each text.
    ensures { result ≡ begins "//" text.now }
{
    let stroke = b'/'; // one of them
    text.starts_with(b"//")
}

impl Part {
    fn nothing(self) {}
    fn size(self) -> usize {
        self.count
    }
}
'''


class Code(unittest.TestCase):
    def test_comments_are_no_code(self):
        self.assertNotIn("Returns", code_of("part.rt", SOURCE))
        self.assertNotIn("one of them", code_of("part.rt", SOURCE))
        self.assertIn('text.starts_with(b"//")', code_of("part.rt", SOURCE))
        self.assertIn('begins "//" text.now', code_of("part.rt", SOURCE))

    def test_a_comment_changes_no_code(self):
        self.assertEqual(code_of("part.rt", SOURCE), code_of("part.rt", SOURCE.replace("two strokes", "// or not")))
        self.assertNotEqual(code_of("part.rt", SOURCE), code_of("part.rt", SOURCE.replace('b"//"', 'b"/"')))

    def test_definitions_have_comments_of_their_own(self):
        text = '-- The sum.\nabbrev pub sum : ℕ → ℕ\nsum n = n - 1 -- or 0\nname = codes "--"\n'
        self.assertEqual(code_of("Sum.antt", text), 'abbrev pub sum : ℕ → ℕ\nsum n = n - 1\nname = codes "--"')

    def test_a_body_is_no_statement(self):
        statement = statement_of("part.rt", SOURCE)
        self.assertIn("ensures { result ≡ begins", statement)
        self.assertNotIn("starts_with", statement)
        self.assertNotIn("self.count", statement)
        self.assertIn("fn size(self) -> usize {", statement)
        self.assertEqual(statement, statement_of("part.rt", SOURCE.replace("self.count", "self.count + 1")))
