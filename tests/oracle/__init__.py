"""Plain models of the program, written from its definitions and not from its code."""
