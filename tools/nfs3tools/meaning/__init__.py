"""What calls and replies say against each other: exchanges as values, and rules over them."""
