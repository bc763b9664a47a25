"""That `tools/words` counts the words of the pages as its text says, and reports each limit that a page exceeds."""
import pathlib
import tempfile

from . import tool

SHORT, LONG = "A page has these words. ", "Word " + "word " * 48 + "word."
# A page with one thing too much, and what is said of it; 'docs/x.md' is the page.
PAGES = (
    ("a short page", SHORT, "docs/x.md                        5        5      5.0         5          5\n"),
    ("a sentence of 50 words", SHORT * 9 + LONG, "docs/x.md                       95       95      9.5        50         95\n"),
    ("a sentence of 51 words", SHORT * 9 + "And w" + LONG[1:], "  docs/x.md:1: a sentence of 51 words: And word word word word word word word ..\n"),
    ("a paragraph of 120 words", SHORT * 24, "docs/x.md                      120      120      5.0         5        120\n"),
    ("a paragraph of 121 words", SHORT * 23 + "A page has these six words.", "  docs/x.md:1: a paragraph of 121 words: A page has these words. ..\n"),
    ("an average of 20 words", "word " * 19 + "word.", "docs/x.md                       20       20     20.0        20         20\n"),
    ("an average above 20 words", "word " * 20 + "word.", "  docs/x.md:1: 21.0 words a sentence on average\n"),
    ("a sentence of the second line", "A page has\nlines. And w" + LONG[1:], "  docs/x.md:2: a sentence of 51 words: And word word word word word word word ..\n"),
    ("what is aside", f"# Head\n\n```text\n{LONG}\n{LONG}\n```\n| a | table |\n\n{SHORT}", "docs/x.md                      109        5      5.0         5          5\n"),
    ("inline code, a link and a mark", "A `let x = 1` is **one** [such word](x.md) more.", "docs/x.md                        7        7      7.0         7          7\n"),
    ("entries of a list", f"- {SHORT * 20}\n- {SHORT * 20}", "docs/x.md                      200      200      5.0         5        100\n"),
    ("40,000 words", f"{SHORT * 20}\n\n" * 400, "all that no script writes    40000    40000\n"),
    ("40,001 words", f"{SHORT * 20}\n\n" * 400 + "Word.", "  40001 words in the sentences of these pages, and at most 40000 are wanted\n"),
)
# The same of a page of a crate, beside the empty pages.
OF_CRATES = (
    ("8,000 words", f"{SHORT * 20}\n\n" * 80, "all pages of crates           8000     8000\n14 passed, 0 failed\n"),
    ("8,001 words", f"{SHORT * 20}\n\n" * 80 + "Word.", "  8001 words in the sentences of these pages, and at most 8000 are wanted\n13 passed, 1 failed\n"),
    ("a sentence of 51 words in a crate", SHORT * 9 + "And w" + LONG[1:], "  crates/x/README.md:1: a sentence of 51 words: And word"),
)


def answers(_program):
    with tempfile.TemporaryDirectory() as folder:
        top = pathlib.Path(folder)
        for name in ("docs", "crates/x"):
            (top / name).mkdir(parents=True)
        for name in ("README.md", "CONTRIBUTING.md"):
            (top / name).write_text("")
        for page, cases in (("docs/x.md", PAGES), ("crates/x/README.md", OF_CRATES)):
            for what, text, says in cases:
                (top / page).write_text(text)
                status, told = tool.run("words", top)
                yield f"words of {what}: {told}", (status, says in told), (1 if says.startswith("  ") else 0, True)
            (top / page).write_text("")
        (top / "docs/HEADLINE.md").write_text(PAGES[-1][1])
        yield "the same words on a page that a script writes", tool.run("words", top)[0], 0
        yield from of_roles(top)
    yield "wrong words of words", tool.run("words", "--all")[0], 1


def of_roles(top):
    """All words of the pages that a role reads, and of those in which it looks things up."""
    text = "## Pages\n\n| Role | Reads | Looks up |\n|---|---|---|\n| readers | [x](docs/x.md) | [y](docs/y.md), the pages of crates |\n"
    (top / "CONTRIBUTING.md").write_text(text)
    (top / "crates/x/README.md").write_text("One word more.\n")
    (top / "docs/y.md").write_text(SHORT)
    for count, status in ((2_400, 0), (2_401, 1)):
        (top / "docs/x.md").write_text(f"| {SHORT * count}|\n")
        found, told = tool.run("words", top)
        yield f"a role: {told}", (found, f"{'readers read, look up':26}{count * 5:8}{8:9}\n" in told), (status, True)
        yield f"the limit of a role: {told}", " words of pages that readers read, and at most 12000 are wanted\n" in told, bool(status)
