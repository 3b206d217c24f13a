"""Traces that begin a run: how one is written, what is wrong with one, and how a run goes on from one."""
