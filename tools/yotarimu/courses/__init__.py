"""Schedules, scripts that people write, modes in lockstep, and sweeps over grids of options."""
