"""Files for two provers to be compared on: valid and spoilt ones, and those at the limits."""
