"""Runs of one image under many settings, which are to leave the same."""
