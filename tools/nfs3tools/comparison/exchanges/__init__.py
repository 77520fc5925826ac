"""Calls with their replies: what is known of each, which of two runs are matched, and their
order."""
