"""What `upc-lab trace` and `upc-lab list` print for programs, beside the machine and the assembler of reference/policer."""
