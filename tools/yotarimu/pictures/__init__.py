"""Pictures (SVG) of runs, schedules and figures, and the page that shows a run act by act."""
