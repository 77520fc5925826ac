"""What all tools use: files that are written, programs that are run, places, names, the layouts of
messages and the version."""
