"""Judges proofs that the program prints, by `docs/REASONS.md` alone."""
