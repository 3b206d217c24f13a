"""The page of a run, on which a reader goes along its lines."""
