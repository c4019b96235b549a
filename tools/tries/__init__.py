"""Tries of whole tools, each in a fresh clone."""
