"""The archive that is handed out, and the unproved program."""
