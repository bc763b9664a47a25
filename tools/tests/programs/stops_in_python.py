"""A program that stops in a module of Python: its own line is told, and not that of the module."""
import json


def settings():
    return json.loads("")


settings()
