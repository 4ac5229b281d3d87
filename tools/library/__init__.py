"""Proofs of the first library, and what makes proof tables of them: see ../README.md."""
