"""Measurements of time and memory; docs/dev/MEASUREMENTS.md has the tables that they print."""
