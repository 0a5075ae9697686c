"""Files answer by their first comments, and by what pages say of them."""
import unittest

from atlas.files import exists
from atlas.outlines import first_comment, said_of_files, scripts


class Outlines(unittest.TestCase):
    def test_a_first_comment_is_one_line(self):
        for text in (
            "//! Doors and\n//! keys.\n\nuse door;\n",
            "-- Doors and\n-- keys.\n\n-- A door.\n",
            "#!/bin/sh\n# Doors and\n# keys.\nset -u\n",
            '#!/usr/bin/env python3\n"""Doors and keys.\n"""\nimport os\n',
            "/* Doors and\n * keys. */\nint main(void);\n",
        ):
            self.assertEqual(first_comment(text), "Doors and keys.")
        self.assertEqual(first_comment("int main(void);\n"), "")

    def test_pages_name_files_that_are_there(self):
        said = said_of_files()
        self.assertTrue(any("tokens" in it for it in said["crates/rules_text/src/lexer.rt"]))
        self.assertEqual([it for it in said if not exists(it)], [])

    def test_data_is_no_script(self):
        found = {it.path for it in scripts()}
        self.assertTrue({"bin/install", "tests/forward", "examples/c/threads.c"} <= found)
        self.assertFalse(any(it.endswith((".md", ".svg", ".answers", ".pyc")) for it in found))


if __name__ == "__main__":
    unittest.main()
