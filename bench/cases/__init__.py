"""Generated calls of the program: images, scripts and reports, and counts of their outcomes."""
