"""Unit tests of the tools, which need no built program: `tools/check.py units` runs them."""
