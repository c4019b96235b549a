"""The applications of the folder applications/: problems for them, made from a seed, and checks of what they leave."""
