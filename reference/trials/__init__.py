"""Random and mutated inputs of each subcommand, on which the program as built and the reference are compared."""
