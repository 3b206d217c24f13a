"""The log of a port of LCRQ beside the model."""
