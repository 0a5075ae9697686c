import unittest

from atlas.definitions import Module

SOURCE = """-- Forms.
use Rattle.std.specs.Prelude.{N}

abbrev mutual
  -- The size of one.
  pub one_size : One -> N
  one_size one = 1

  -- The size of two.
  pub two_size : Two -> N
  two_size two = 2

-- A pair of them.
pub record Pair : Type 0 where
  pub one : N
"""


class TestMutualBlocks(unittest.TestCase):
    def setUp(self):
        self.module = Module.__new__(Module)
        self.module.sentence, self.module.definitions = "", {}
        self.module.read(SOURCE.split("\n"))

    def test_each_definition_of_a_block_is_found(self):
        self.assertEqual(list(self.module.definitions), ["one_size", "two_size", "Pair"])
        self.assertEqual(self.module.definitions["two_size"].sentence, "The size of two.")

    def test_a_block_ends_at_its_end(self):
        self.assertEqual(self.module.definitions["Pair"].parts, ["one"])
