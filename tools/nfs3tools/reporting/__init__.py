"""What is printed and written, and how the tools speak and end."""
