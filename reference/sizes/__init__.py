"""The buckets of contracts in plain Python, with exact fractions: written from docs/CONTRACTS.md."""
