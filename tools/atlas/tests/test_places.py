"""Tests of the check of paths in scripts and pages."""
import unittest

from atlas.places import PATH, is_there


class Paths(unittest.TestCase):
    def test_found_in_text(self):
        self.assertEqual(PATH.findall("see `docs/FORMATS.md`, and \"$root/tests/prove\""), ["docs/FORMATS.md", "tests/prove"])
        self.assertEqual(PATH.findall("a/docs/FORMATS.md and $room/crates/storm"), [])

    def test_there(self):
        for path in ("docs/FORMATS.md", "crates/X/src/..", "crates/leaky/must-fail/WHAT-IS-WRONG.edit", "crates/upc/out/upc", "crates/leaky/out/leaky_tests"):
            self.assertTrue(is_there(path), path)

    def test_not_there(self):
        for path in ("docs/RULES-OF-OLD.md", "crates/nothing/src/lib.rt", "crates/upc/out/other"):
            self.assertFalse(is_there(path), path)


if __name__ == "__main__":
    unittest.main()
