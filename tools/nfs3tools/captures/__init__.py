"""What is at a position of a capture or a recording."""
