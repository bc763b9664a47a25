"""The transcript of a document's bytes, by the executor of tools/virraupez, which was written from docs/rules.md alone and knows
nothing of the program.

transcript(document) gives the lines, and raises codes.Refused if the bytes say no plan. As a program it reads a document on standard
input, and writes its transcript or the line of its refusal."""
import json
import sys

sys.dont_write_bytecode = True
import codes
from virraupez.executor import lines_of

__all__ = ["lines_of", "transcript"]


def transcript(given):
    """The lines of a document's bytes."""
    code = codes.code(given)
    codes.demand(code == 0, code)
    return lines_of(json.loads(given))


def main():
    try:
        lines = transcript(sys.stdin.buffer.read())
    except codes.Refused as refused:
        print(f"refused {refused.args[0]}", file=sys.stderr)
        return 1
    print("\n".join(lines))
    return 0


if __name__ == "__main__":
    sys.exit(main())
