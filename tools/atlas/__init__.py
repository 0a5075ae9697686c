"""A map of the sources: functions with their clauses, definitions, proofs, tests and edits, and how they belong together.

Nothing here is kept by hand: all of it is read from crates/ each time.
"""
