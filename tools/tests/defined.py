"""That the definitions of docs/HEADLINE.md, computed as the page prints them, give what the program gives: over all of cases/ and
examples/ and over generated documents. That a change of the page changes what they give, and that what isn't known has its place."""
import re
import sys

from virraupez import command, runs
from virraupez.definitions import library, page, program

from . import tool

sys.path.insert(0, str(tool.TOP / "cases"))
import generate  # noqa: E402

DOCUMENTS = sorted([*(tool.TOP / "cases").rglob("*.json"), *(tool.TOP / "examples").glob("*.json")])
TEXT = (tool.TOP / page.PAGE).read_text()
# How many documents are generated at each rule, each by both orders.
SEEDS = 2
# Changes of the page that its reader doesn't know: what becomes what, the text of the line that is named, and what is said.
UNKNOWN = (
    ("x ∷ xs) = if test x then xs else x", "x ∷ xs) = if test x then xs or x", "drop_first test (x ∷ xs)", "`else` is wanted before the end"),
    ("has_id id goal = goal.id == id", "has_id id goal = goal.id =? id", "has_id id goal =", "nothing says what =? is"),
    ("is_topic Topic = true", "is_topic Subject = true", "is_topic Subject", "no type of the page has a variant Subject of 0 fields"),
    ("is_accepted state.Accepted = true", "is_accepted phase.Accepted = true", "is_accepted phase", "phase.Accepted: no enum of the page, or more than one, has these variants: Accepted"),
    ("pub const NODES: usize = 64;", "pub const NODES: usize = 1 << 6;", "pub const NODES", "no constant that is a number or a list of variants: NODES"),
    ("| `Rattle.std.specs.Fmt` | `signed_decimal` |", "| `Rattle.std.specs.Fmt` | `binary` |", "| `Rattle.std.specs.Fmt` | `binary`", "the library has binary, which isn't in definitions/library.py"),
    ("excess depth items = length items - depth", "excess depth (items = length items - depth", "excess depth (items", "more is wanted before the end"),
)
# Changes of definitions, each with the document of cases/ or examples/ that tells it: its transcript or its code is another one then.
CHANGES = (
    ("(timer.next + timer.period) timer.period now", "(now + timer.period) timer.period now", "timer"),
    ("is_due timer now = nat_le timer.next now", "is_due timer now = nat_le (timer.next + 1) now", "timer"),
    ("in drop (excess depth all) all", "in take depth all", "run/three_messages_into_a_depth_of_2"),
    ("operation.Add a b = int_wrapping_add w64 a b", "operation.Add a b = int_wrapping_sub w64 a b", "wrapping"),
    ("Lt a b = if int_lt a b", "Lt a b = if int_lt b a", "comparisons"),
    ("skipped_by (step.Skip count) left = count", "skipped_by (step.Skip count) left = 0", "skips"),
    ("selects zero (suc before) goal = nat_le goal.stamp (suc before)", "selects zero (suc before) goal = nat_le goal.stamp before", "run/cancel_up_to_a_stamp"),
    ("= has_id (suc id) goal || nat_le goal.stamp (suc before)", "= has_id (suc id) goal", "run/cancel_by_identifier_or_stamp"),
    ("nat_le (goal.ended + timeout) moment", "nat_le (goal.ended + timeout + 1) moment", "result_expires"),
    (" || (turn.canceling && not task.knows_canceling))", ")", "run/wait_that_a_cancel_ends"),
    ("ending_event false event.Canceled = event.Abort", "ending_event false event.Canceled = event.Canceled", "run/canceled_that_nobody_asked_for"),
    ("if is_terminal goal.state then code.GoalTerminated else code.Rejected", "code.Rejected", "run/cancel_of_a_goal_that_ended"),
    ("unknown world = tell server id status.Unknown (pos 0) client world", "unknown world = world", "run/result_that_expires_before_it_is_asked_for"),
    ("= not (holds_id id goals || is_full goals)", "= not (is_full goals)", "run/identifier_that_is_held"),
    ("= not (holds_id id goals || is_full goals)", "= not (holds_id id goals)", "run/more_goals_than_a_server_holds"),
    (
        "= feed (fed_in number plan.feed) (expire moment (add_line (line.Round number moment) world))",
        "= expire moment (feed (fed_in number plan.feed) (add_line (line.Round number moment) world))",
        "run/expiry_before_what_is_fed",
    ),
    ("(item.Response request.id (is_accepting made))", "(item.Response request.id true)", "run/goal_that_its_handler_rejects"),
    ("or_default count DEFAULT_DEPTH", "or_default count DEPTH", "run/eleven_messages_without_a_depth"),
    ("yield_of [] = Ok instr.Yield", "yield_of [] = Ok (instr.Wait (operand.Value (pos 1)))", "run/yield_at_moments_alike"),
    ("(status_of candidate.state)); moment = moment", "status.Accepted); moment = moment", "run/cancel_handler_that_reads_the_state"),
    ("rank_under order.Kind world one = ready_number (kind_of one.cause)", "rank_under order.Kind world one = 0", "run/feedback_and_a_result"),
    ("then x ∷ y ∷ ys else y ∷ inserted_by rank x ys", "then y ∷ inserted_by rank x ys else x ∷ y ∷ ys", "two_timers"),
    ("pend order.Arrival server id world = goal_arrived server id world", "pend order.Arrival server id world = world", "arrival/of_a_poll_after_a_message"),
    ("if is_refused decisions then code.Rejected else code_by", "code_by", "run/cancel_up_to_a_stamp_that_is_rejected"),
    ("line.Pending number (suc more)", "line.Pending number more", "examples/service"),
    ("nat_le (reach_of instruction) (length rest)", "nat_le (reach_of instruction + 1) (length rest)", "scripts/a_skip_to_the_end"),
    ("nat_le (length text) NAME_LENGTH", "nat_le (length text + 1) NAME_LENGTH", "names/of_64_characters"),
    ("option_map_or (nat_le 1) (read id) false", "option_map_or (nat_le 0) (read id) false", "ids/a_goal_of_zeros"),
)
# Expressions, and what they give.
ASKED = (
    ("next_call (record { next = 10; period = 10 }) 35", "40"),
    ("sent 2 30 (10 ∷ 20 ∷ [])", "20 ∷ 30 ∷ []"),
    ("displaced 2 30 (10 ∷ 20 ∷ 25 ∷ [])", "10 ∷ 20 ∷ []"),
    ("after state.Executing event.CancelGoal", "Some Canceling"),
    ("map status_number (status.Accepted ∷ status.Aborted ∷ [])", "1 ∷ 6 ∷ []"),
    ("(λ x y. x - y) 5 7", "0"),
    ("result_of operation.Add (pos 9223372036854775807) (pos 1)", "-9223372036854775808"),
    ("id_text (goal_id 0 1)", 'codes "00000000-0000-0001-0000-000000000001"'),
    ("name_at (codes \"drive\" ∷ []) 0", 'codes "drive"'),
    ("(codes \"in\", operand.In)", '(codes "in", In)'),
    ("length plan.moments", "4"),
    ("(at_snapshot plan 2 10 (first_world plan)).lines", "(Round 2 10) ∷ []"),
    ("names_of plan.graph", '(codes "t") ∷ []'),
    ("document_of", "a function"),
)
# Expressions that can't be computed, and what is said of them.
WRONG = (
    ("next_call 10 0", "next_call 10 0: a definition is asked of what has another type"),
    ("IN_ORDER", "IN_ORDER: IN_ORDER has more than one definition, and nothing says which one is meant"),
    ("first_rached 1 2 3 4", "first_rached 1 2 3 4: nothing says what first_rached is"),
    ("kind.Tick", "kind.Tick: kind.Tick: no enum of the page, or more than one, has these variants: Tick"),
    ("1 +", "1 +: more is wanted before the end"),
    ("1 2 )", "1 2 ): nothing more is wanted, and there is `)`"),
)
# Lines of the first round of examples/keep_last.json, without their places.
TRACED = """round 1 10
  the line: round 1 10
  ready_list gives 1 callback, in the order Kind
    1. burst, rank 1: Due
  next_call (record { next = 10; period = 10 }) 10 gives 20
  run (1. burst)
    the line: run burst timer 10 0
    give (1. burst) (Publish 0 3)
      push to last_two: Message 3; it displaces (Message 1) ∷ []
        the line: drop last_two message 1
      push to all: Message 3; it displaces nothing
    close_callback (1. burst) Nothing"""


def answers(_program):
    yield from program.deeply(lambda: list(of_page()))
    yield from of_command()
    yield "how the functions of the library are said", [name for name, it in library.FUNCTIONS.items() if not it.__doc__], []
    yield "what is known of the library, and not on the page", sorted(library.NAMES - page.read().library.keys()), []


def of_page():
    made = program.Program(page.Page(TEXT))
    for path in DOCUMENTS:
        yield f"{path.name} by the definitions", answer(made, path.read_bytes()), wanted(path)
    for given, name in generated():
        yield f"{name} by the definitions", answer(made, given), reference(given)
    for given in ((5, 3, 2, 17), (1, 3, 2, 17), (0, 3, 2, 17), (9, 20, 2, 17), (4, 3, 7, 3), (40, 0, 3, 100)):
        yield f"first_reached by a division {given}", library.first_reached(*given), made.ask("first_reached", *given)
    for old, new, name in CHANGES:
        path = next(it for it in DOCUMENTS if it.with_suffix("").as_posix().endswith(f"/{name}"))
        changed = program.Program(page.Page(TEXT.replace(old, new)))
        yield f"{name} where {old} is {new}", (TEXT.count(old), answer(changed, path.read_bytes()) == wanted(path)), (1, False)
    for old, new, line, says in UNKNOWN:
        yield f"a page with {new}", unknown(old, new), (TEXT.count(old), f"docs/HEADLINE.md:{line_of(line, old, new)}:1: {says}")


def answer(made, given):
    """What the definitions say of a document's bytes: its transcript, or the code of its refusal."""
    try:
        return made.text(given).decode()
    except program.Refused as refused:
        return f"refused {refused}\n"


def wanted(path):
    """What stands beside a document."""
    refused = path.with_suffix(".refused")
    return f"refused {refused.read_text().split()[-1]}\n" if refused.exists() else path.with_suffix(".txt").read_text()


def generated():
    for seed, rule in ((seed, rule) for rule in generate.RULES for seed in range(SEEDS)):
        for order in (None, generate.SHARES[seed % len(generate.SHARES)]):
            name, given = generate.made(seed, rule, order)
            yield given, name


def reference(given):
    try:
        return runs.Reference().transcript(given)
    except runs.Refused as refused:
        return f"refused {refused}\n"


def unknown(old, new):
    """How often something is on the page, and what is said of the page where it is something else."""
    try:
        program.Program(page.Page(TEXT.replace(old, new)))
    except command.Trouble as wrong:
        return TEXT.count(old), str(wrong)
    return TEXT.count(old), "nothing"


def line_of(begin, old, new):
    """The number of the line of the changed page that has a text."""
    return next(at for at, line in enumerate(TEXT.replace(old, new).split("\n"), 1) if begin in re.sub("^ *[0-9]+  ", "", line))


def of_command():
    timer = (tool.TOP / "examples/timer.txt").read_text()
    status, text = tool.within("run", "--definitions", "examples/timer.json")
    yield "run --definitions", (status, text.startswith(timer), text.count("\n")), (0, True, timer.count("\n") + 1)
    status, text = tool.within("run", "--definitions", "cases/limits/513_timers.json")
    yield "run --definitions of a document that is refused", (status, text.startswith("refused 5\n")), (1, True)
    for expression, gives in ASKED:
        yield f"run --ask {expression!r}", tool.within("run", "examples/timer.json", "--ask", expression), (0, f"{gives}\n")
    yield "run --ask of no document", tool.within("run", "--ask", "1 + 2 * 3"), (0, "7\n")
    for expression, says in WRONG:
        yield f"run --ask {expression!r}", tool.within("run", "--ask", expression), (2, f"virraupez run: {says}\n")
    yield "run --ask of the plan of what is refused", tool.within("run", "cases/limits/513_timers.json", "--ask", "plan.moments")[0], 1
    yield "run of no document", tool.within("run"), (2, "virraupez run: this word is required: DOCUMENT, or --ask EXPRESSION\n")
    status, text = tool.within("run", "examples/keep_last.json", "--trace", 1)
    steps = [re.fullmatch(r"docs/HEADLINE\.md:(\d+): ((?: *(\w+)).*)", line).groups() for line in text.splitlines()]
    yield f"run --trace: {text}", (status, [line for line in TRACED.split("\n") if line not in [step for _, step, _ in steps]]), (0, [])
    for name, place in {(name, place) for place, _, name in steps if name.isalpha() and name != "the"}:
        yield f"the line of {name}", bool(re.match(rf" *\d+  abbrev pub {name} :", TEXT.split("\n")[int(place) - 1])), True
    yield "run --trace of no round", tool.within("run", "examples/timer.json", "--trace", 5), (2, "virraupez run: the document has 4 rounds, and no round 5\n")


