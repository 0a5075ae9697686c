"""Captures, read again: `upc-lab cells` and `upc-lab fit` in Python, from the public formats."""
