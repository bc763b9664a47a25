"""search: looks for the timing of inputs that breaks a rule. It runs a document again and again with other moments, drops or
periods, and holds each run to rules, as

  ./virraupez search robot.json --rules robot.rules --move feed[3] 10..400 --all

WHAT is an entry of the feed, as feed[3], counted from 0, or a topic or an action server, for all that is fed to it. RANGE is A..B,
±N or one number, in ticks. If there are at most as many variations as runs, each is run once; if there are more, some are drawn
by chance. The same words give the same answer on any machine. docs/search.md has more."""
from __future__ import annotations

import argparse
import contextlib
import time

from .. import TYPE_CHECKING, command, crew, flow, grammar, judge, junit, search_folder, searching, shards, space, table, view

if TYPE_CHECKING:
    from typing import Any, Optional, Tuple

    from ..shapes import Fields, Out

STATUS = """The status is 0 if no run breaks a rule, 1 if one does or if the runs say nothing of a rule, and 2 if the document or the rules
are wrong or a run fails. It is 130 after Ctrl-C, and what was found so far is reported."""
RUNS, INTERRUPTED = 10000, 130
# The greatest number of processes that a user may ask for.
PROCESSES = 1024
# The options that say what may vary, with what each takes and what it does.
VARIES = {
    "move": (("WHAT", "A..B"), "let an entry come at each moment of a range"),
    "jitter": (("WHAT", "RANGE"), "let each entry come earlier or later by a number of ticks"),
    "drop": (("WHAT",), "let each entry come or not"),
    "twice": (("WHAT",), "let each entry come once or twice"),
    "swap": (("WHAT",), "let each entry and the next one change places"),
    "period": (("TIMER", "A..B"), "let a timer have each period of a range"),
    "shift": (("A..B", "RANGE"), "let each round from moment A to B come earlier or later by a number of ticks"),
    "miss": (("A..B",), "let each round from moment A to B be or not"),
}


class Varies(argparse.Action):
    """Keeps what may vary, in the order of the words."""

    def __call__(self, _parser: argparse.ArgumentParser, asked: argparse.Namespace, values: Any, _option: Optional[str] = None) -> None:
        setattr(asked, "vary", [*(asked.vary or []), [self.dest, *values]])


def parser(prog: Optional[str] = None) -> command.Parser:
    made = command.parser(__doc__, STATUS, prog)
    made.add_argument("documents", metavar="DOCUMENT", nargs="*", default=[], help="a document, or with --merge what shards wrote; - is standard input")
    command.name_document(made)
    made.add_argument("--rules", metavar="RULES", help="a file of rules, as holds has them")
    made.add_argument("--rule", metavar="LINE", type=command.number, help="the line of the rule, if only one is searched for; the others may be of another document")
    made.add_argument("--robust", metavar="PATTERN", action="append", default=[], help="lines that must stay those of the document's own run, as 'result navigate'")
    for name, (takes, says) in VARIES.items():
        made.add_argument(f"--{name}", metavar=takes, nargs=len(takes), action=Varies, help=says)
    made.add_argument("--runs", metavar="N", type=command.number, default=RUNS, help=f"how many runs there are at most; {RUNS} if it isn't given")
    made.add_argument("--seed", metavar="N", type=command.number, default=1, help="a number that chooses what is drawn by chance; 1 if it isn't given")
    made.add_argument("--all", action="store_true", help="count all runs that break a rule, and don't stop at the first")
    undecided = "let a rule pass that no run decides; otherwise the status is 1"
    made.add_argument("--accept-undecided", dest="accepted", action="append_const", const=searching.UNDECIDED, default=[], help=undecided)
    nothing = "let a rule pass that is of nothing in all runs; otherwise the status is 1"
    made.add_argument("--accept-nothing", dest="accepted", action="append_const", const=searching.NOTHING, help=nothing)
    made.add_argument("--save", metavar="DIR", help="save documents and transcripts of runs that break a rule in a folder")
    made.add_argument("--view", metavar="PAGE", help="write the page of a run that breaks a rule, as view does, with links to the lines that do")
    made.add_argument("--shard", metavar="K/N", type=shard, help="do part K of N, and write JSON lines for --merge")
    made.add_argument("--merge", action="store_true", help="join what all shards wrote, and report it as one search does")
    made.add_argument("--processes", metavar="N", type=processes, help="how many processes run side by side; as many as there are processors")
    made.add_argument("--reference", action="store_true", help="run by the executor in Python, of which nothing is proved")
    junit.option(made)
    made.set_defaults(vary=[])
    # A range may begin with a sign, and is no option then.
    made._negative_number_matcher = space.RANGE
    return made


def processes(text: str) -> int:
    return command.number(text, PROCESSES)


def shard(text: str) -> Tuple[int, int]:
    part, between, of = text.partition("/")
    if not between or not 1 <= command.number(part) <= command.number(of):
        raise argparse.ArgumentTypeError(f"K/N with K from 1 to N, and not {text[:40]!r}")
    return int(part), int(of)


def run(asked: argparse.Namespace, out: Out) -> int:
    command.join_documents(asked)
    if asked.merge:
        return merged(asked, out)
    if len(asked.documents) > 1:
        raise command.Trouble("one document is searched at a time; --merge joins what shards wrote")
    if asked.shard and asked.view:
        raise command.Trouble("--view is of a whole search, and not of a shard")
    if not asked.rules and not asked.robust:
        raise command.Trouble("nothing to hold runs to: --rules gives a file of rules, and --robust lines that must stay")
    return searched(searching.Search(plan(asked)), asked, out)


def plan(asked: argparse.Namespace) -> Fields:
    """What decides the answer of a search."""
    return {
        "name": asked.documents[0],
        "document": flow.read_document(asked.documents[0]),
        "rules": asked.rules,
        "text": command.text_of(asked.rules) if asked.rules else None,
        "rule": asked.rule,
        "robust": asked.robust,
        "vary": asked.vary,
        "runs": asked.runs,
        "seed": asked.seed,
        "all": asked.all,
    }


def searched(made: searching.Search, asked: argparse.Namespace, out: Out) -> int:
    """Searches, and reports what was found, also if Ctrl-C or a run that fails ends it."""
    judging = judge.Judge(judge.executor(asked.reference), made.rules)
    tally, folder = searching.Tally(made), search_folder.Folder(asked.save, made, judging)
    lines = shards.Lines(made, asked.shard, judging.program.described(), out) if asked.shard else None
    number, of = asked.shard or (1, 1)
    progress = Progress(tally, (number, of))
    stopped: Optional[BaseException] = None
    try:
        for part in made.parts(judging, number, of, asked.processes or crew.processors()):
            tally.add(part)
            folder.add(part)
            if lines:
                lines.add(part)
            progress.count(tally)
    except (KeyboardInterrupt, command.Trouble) as ended:
        stopped = ended
    if lines:
        lines.end(stopped is None)
    else:
        reduce(tally, judging, stopped)
        tell(tally, out, stopped, asked)
        show(asked.view, made, judging, tally, out)
    out.flush()
    out.keep()
    folder.end(tally)
    # A shard doesn't know what other shards say of a rule.
    return status(tally, stopped, not lines and any(tally.silent(asked.accepted)))


def merged(asked: argparse.Namespace, out: Out) -> int:
    """Joins shards, and reports what they found."""
    if asked.view:
        raise command.Trouble("--merge joins what shards wrote, and runs nothing: it has no run for --view")
    if asked.rules or asked.robust or asked.vary or asked.shard:
        raise command.Trouble("--merge joins what shards wrote, with the rules and the words that they were given: it takes none of its own")
    joined = shards.join(asked.documents)
    missing = list(joined.missing())
    made, tally = joined.tally.search, joined.tally
    if asked.save or tally.first and not made.is_all:
        judging = judge.Judge(judge.executor(asked.reference), made.rules)
        made.own(judging)
        reduce(tally, judging, missing)
    tell(tally, out, missing, asked)
    out.keep()
    if asked.save:
        search_folder.Folder(asked.save, made, judging).end(tally)
    return status(tally, command.Trouble(*missing) if missing else None, any(tally.silent(asked.accepted)))


def reduce(tally: searching.Tally, judging: judge.Judge, stopped: object) -> None:
    """Finds the fewest changes of a run that ended a search, or as few as are found before Ctrl-C."""
    if tally.first and not tally.search.is_all and not stopped:
        with contextlib.suppress(KeyboardInterrupt):
            searching.reduce(tally, judging)


def tell(tally: searching.Tally, out: Out, stopped: object, asked: argparse.Namespace) -> None:
    for line in table.lines(tally, out.paint, "; it ended early" if stopped else "", asked.accepted):
        out.line(line)
    junit.write(asked, [(tally.search.plan["name"], list(table.cases(tally, asked.accepted)))])


def show(name: Optional[str], made: searching.Search, judging: judge.Judge, tally: searching.Tally, out: Out) -> None:
    """Writes the page of the run with the least change that breaks the first of the broken rules, and tells the links to the lines."""
    first = tally.found[min(tally.found)].least if tally.found else tally.own
    if not name or first is None:
        return
    document = made.space.value(first.taken) if first.taken else made.document
    title = f"run {first.number} of a search of {command.shown(made.plan['name'])}" if first.number else command.shown(made.plan["name"])
    shown = view.Run(title, made.run(judging, first.number, first.taken), document, 1, grammar.MOMENTS, judging.check)
    with command.Output(name) as page:
        page.write(view.page([shown], title, rules=len(made.rules)))
    for line in view.links(name, judging.rules):
        out.line(line)


def status(tally: searching.Tally, stopped: Optional[BaseException], is_open: bool) -> int:
    """The status of a search. It is open if the runs say nothing of a rule."""
    if isinstance(stopped, command.Trouble):
        raise stopped
    return INTERRUPTED if stopped else command.FINE if tally.first is None and not is_open else command.FOUND


class Progress:
    """How far a search is, for the line on a terminal."""

    def __init__(self, tally: searching.Tally, shard: Tuple[int, int]) -> None:
        self.begun, self.all = time.monotonic(), len(range(shard[0], tally.search.runs + 1, shard[1]))
        self.count(tally)
        command.PROGRESS.says = self.says

    def count(self, tally: searching.Tally) -> None:
        self.runs, self.broken = tally.runs, tally.broken

    def says(self) -> str:
        rate = self.runs / max(time.monotonic() - self.begun, 0.001)
        left = f", {(self.all - self.runs) / rate:.0f} s left" if rate else ""
        return f"{self.runs} of {self.all} runs, {rate:.0f} a second, {self.broken} break a rule{left}"
