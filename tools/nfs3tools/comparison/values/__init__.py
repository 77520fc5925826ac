"""The classes of values: which there are, how they are masked, which belongs to which, and where
long ones part."""
