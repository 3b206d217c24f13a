"""Runs a check by its name: what the gate runs beside the proofs, and what is run before a release."""
