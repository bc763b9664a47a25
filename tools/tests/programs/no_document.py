"""A program that has nothing to do with documents."""
