"""What reads the repository itself: contracts, definitions, counts of lines, the gate's times."""
