"""Captures and recordings to try, and what builds their parts."""
