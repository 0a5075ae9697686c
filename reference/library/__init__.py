"""A fuzzer of the library for C: random calls, each compared with a model of the handles that it is given."""
