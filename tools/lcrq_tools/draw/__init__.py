"""Drawings of a run and of the queue at one moment."""
