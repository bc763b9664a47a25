"""A module beside a program."""
PERIOD = 10
