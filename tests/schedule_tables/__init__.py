"""Schedules, with what a replay of each prints."""
