"""A program that ends itself with a status."""
import sys

sys.exit(int(sys.argv[1]) if sys.argv[1:] else "usage: ends_itself.py STATUS")
