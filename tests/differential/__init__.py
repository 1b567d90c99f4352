"""Comparisons of the real program with the plain models, on drawn inputs."""
