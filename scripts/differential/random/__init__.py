"""Parts whose cases are made at random, each list by a seed."""
