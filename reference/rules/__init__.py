"""Rules in plain Python: a reader and an evaluator that were written from docs/RULES.md."""
