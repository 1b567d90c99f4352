"""Programs that read the repository itself: definitions, shape, and the cost of the gate."""
