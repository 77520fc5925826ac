"""What is said of two runs: by the programs, and by what differs between the messages that belong
together."""
