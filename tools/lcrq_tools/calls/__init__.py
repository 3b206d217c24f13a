"""The calls of one run as intervals, for `calls.py`: read, ordered as a FIFO queue would answer them, and drawn."""
