"""Canonical texts of graphs that are larger than memory, made in parts: `canon-in-parts`."""
