"""What speaks of a run in words: sentences of steps and lines, and the tools that print them."""
