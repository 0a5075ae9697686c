"""Tests of the check of commits."""
import unittest

from atlas.history import changes, fault

HEAD = "diff --git a/{0} b/{0}\n--- a/{0}\n+++ b/{0}\n@@ -1 +1 @@\n"


def diff(path, *lines):
    return HEAD.format(path) + "\n".join(lines) + "\n"


class Commits(unittest.TestCase):
    def test_what_is_changed(self):
        source = "crates/leaky/src/bucket.rt"
        self.assertEqual(changes(diff(source, "-    ensures fill { a }", "+    ensures fill { b }")), {"contract"})
        self.assertEqual(changes(diff(source, "+    let ensures_nothing = 1;", "+    // It ensures that.")), set())
        self.assertEqual(changes(diff("crates/leaky/specs/Bucket.antt", "+fill b = b.level")), {"contract"})
        self.assertEqual(changes(diff("crates/leaky/specs/Bucket.antt", "+-- The fill of a bucket.", "+use Rattle.std.specs.Prelude.{List}")), set())
        self.assertEqual(changes(diff("crates/leaky/specs/inner/Bucket.antt", "+fill b = b.level")), set())
        self.assertEqual(changes(diff("bench/RESULTS.md", "-| run | 2.1 |", "+| run | 2.0 |")), {"figure"})
        self.assertEqual(changes(diff("bench/RESULTS.md", "-| `vc_lines` | 2.1 |", "+| `vc_table` | 2.1 |")), set())
        self.assertEqual(changes(diff("bench/RESULTS.md", "-| run | 2.1 |")), {"figure"})
        self.assertEqual(changes(diff("bench/RESULTS.md", "+Least of 30 rounds.")), set())
        self.assertEqual(changes(diff(source, "+    ensures b { c }") + diff("bench/RESULTS.md", "+| run | 2.0 |")), {"contract", "figure"})

    def test_what_a_body_lacks(self):
        self.assertIsNone(fault("", set()))
        self.assertIsNone(fault("The level was not bounded.", {"contract"}))
        self.assertIsNotNone(fault(" \n", {"contract"}))
        self.assertIsNotNone(fault("It is faster now.", {"figure"}))
        self.assertIsNone(fault("A cell took 46 ns and takes 40.", {"figure", "contract"}))


if __name__ == "__main__":
    unittest.main()
