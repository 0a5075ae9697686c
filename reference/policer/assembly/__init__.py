"""The assembler: tokens, the grammar of a line, labels, and the code that a source means."""
