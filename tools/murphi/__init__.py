"""Murphi's language, read for `tools/from_murphi.py`: tokens, trees, bodies of rules run on terms, and their models."""
