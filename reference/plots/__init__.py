"""Pictures of what `upc-lab police` prints: `bin/plot`."""
