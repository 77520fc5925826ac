"""The pages for a browser that the tools write."""
