"""Figures of runs and of played schedules, as tables, as rows of CSV and as curves."""
