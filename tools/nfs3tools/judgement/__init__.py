"""Verdicts on connections, also while a recording is made, and counts by procedure."""
