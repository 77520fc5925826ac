"""Tests of the built programs, and of sources and pages. Modules are named from the top of the
repository."""
