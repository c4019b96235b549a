"""The built programs: how they are run, what they are to answer, and what they bear."""
