"""What tests/hosts is made of."""
