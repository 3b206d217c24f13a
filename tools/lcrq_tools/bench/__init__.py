"""Runs a measurement of the program by its name."""
