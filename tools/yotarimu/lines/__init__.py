"""The event log of `fractal_watch`: read, replayed, and described in sentences."""
