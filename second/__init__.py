"""The second program of the traverse desk, written from the rules alone."""
