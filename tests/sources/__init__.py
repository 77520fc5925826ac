"""Rules for sources and pages."""
