"""The tools for testers. This folder is a package for its tests alone, which name modules from the
top."""
