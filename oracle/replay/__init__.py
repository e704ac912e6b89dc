"""Replay data for the tables checker and the name tables."""
