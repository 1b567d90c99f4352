"""Runs of the real program among files, processes, faults and limits."""
