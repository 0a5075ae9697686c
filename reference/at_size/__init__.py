"""Scripts of a size that no file has, with their answers (tests/at-size)."""
