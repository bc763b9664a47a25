"""The definitions of docs/HEADLINE.md, read from the page as it is printed and run: what the theorem says, computed.

`page` reads the page, `code` its types, `syntax` the language of its definitions. `compiler` makes Python of them, `library` is what
they take from the toolchain, and `program` answers by them. `steps` tells what they do in a round."""
from __future__ import annotations
