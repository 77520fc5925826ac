"""What is taken of a recording or a capture: its files, frames, segments, streams, records and
container."""
