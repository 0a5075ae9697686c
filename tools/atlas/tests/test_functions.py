"""Functions are read with their comments, contracts and bodies."""
import unittest

from atlas.functions import clauses_of, functions_in, type_of

SOURCE = '''//! A counter.

/// Counts cells.
pub struct Counter;

impl Counter {
    /// Adds cells.
    ///
    /// # Errors
    ///
    /// `Full` above the most.
    // no edit: an example has none
    pub fn add(&mut self, cells: u64) -> Result<(), Full>
        ensures added { OnOk result (self.new ≡ self.old + cells) }

        // A refusal changes nothing.
        ensures unchanged { OnErr result (record {
            old = self.old;
        } ≡ self.new) }
    {
        let most = most();
        self.raise(most, cells)
    }
}

impl<T: Drop> Gives<T> for Counter {
    fn give(&self) -> T;
}

/// A law.
pub fn counters_count()
    ensures { CountersCount }
{}

fn most() -> u64 {
    9
}

#[test]
fn nine_is_the_most() {
    assert_eq!(most(), 9);
}
'''


class Functions(unittest.TestCase):
    def setUp(self):
        self.found = {it.name: it for it in functions_in("counters", "crates/counters/src/counter.rt", SOURCE)}

    def test_names(self):
        self.assertEqual([it.full for it in self.found.values()], [
            "counters::counter::Counter::add", "counters::counter::CounterGives::give", "counters::counter::counters_count",
            "counters::counter::most", "counters::counter::nine_is_the_most",
        ])

    def test_comment(self):
        self.assertEqual(self.found["add"].sentence, "Adds cells.  # Errors  `Full` above the most.")
        self.assertEqual(self.found["add"].no_edit, "an example has none")

    def test_clauses(self):
        named = [(it.kind, it.name, it.sentence) for it in self.found["add"].clauses]
        self.assertEqual(named, [("ensures", "added", ""), ("ensures", "unchanged", "A refusal changes nothing.")])

    def test_calls(self):
        self.assertEqual(self.found["add"].calls, {("", False, "most"), ("", True, "raise")})

    def test_kinds(self):
        self.assertEqual([it.name for it in self.found.values() if it.is_law], ["counters_count"])
        self.assertEqual([it.name for it in self.found.values() if it.is_test], ["nine_is_the_most"])


class Heads(unittest.TestCase):
    def test_types(self):
        self.assertEqual(type_of("impl<'a, R: Read> Input for ReaderInput<R> {"), ("ReaderInput", "Input"))
        self.assertEqual(type_of("impl From<AllocError> for Fault {"), ("Fault", "From"))
        self.assertEqual(type_of("pub trait Machine {"), ("Machine", ""))

    def test_a_clause_in_one_line(self):
        self.assertEqual([it.text for it in clauses_of("fn f() ensures few { result < 4 }")], ["result < 4"])


if __name__ == "__main__":
    unittest.main()
