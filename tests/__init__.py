"""The tests. `tests/run` runs them; the docstring of each says what it compares with what."""
