"""Tests of the built programs under faults."""
