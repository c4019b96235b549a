"""Tools around the proved simulator: images and reports, event logs of `fractal_watch`, figures, pictures and modes."""
