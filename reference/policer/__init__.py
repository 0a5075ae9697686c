"""A second policer, in plain Python: what `upc check`, `upc eval` and `upc run` answer.

Written from docs/FORMATS.md and the definitions alone, to be compared with the program as built
(`bin/compare`). It proves nothing. Numbers are Python's, which have no bound, and each rule is
where a reader looks for it, however slow that is.
"""
