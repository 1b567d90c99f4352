"""Files and texts of the repository that an outside program or a plain model makes."""
