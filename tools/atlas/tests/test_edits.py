"""The function that an edit turns is found by its place."""
import unittest

from atlas.edits import place_at

SOURCE = '''/// Opens.
fn open() -> bool {
    true
}

impl Door {
    fn close(&self) -> bool {
        false
    }
}
'''


class PlaceAt(unittest.TestCase):
    def test_a_free_function(self):
        self.assertEqual(place_at("doors", "src/door.rt", SOURCE, SOURCE.find("true")).full, "doors::door::open")

    def test_a_method(self):
        self.assertEqual(place_at("doors", "src/lib.rt", SOURCE, SOURCE.find("false")).full, "doors::Door::close")

    def test_a_definition_is_no_function(self):
        self.assertIsNone(place_at("doors", "specs/Door.antt", SOURCE, 30))


if __name__ == "__main__":
    unittest.main()
