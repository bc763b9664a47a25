"""Python made of definitions: for each a function as text. Arguments are computed before a call, as the prover does it; `if`, `&&` and
`||` compute what they need. A function that is a value takes one argument at a time."""
from __future__ import annotations

import inspect
import re

from .. import TYPE_CHECKING
from . import code, library, tree
from .page import Unknown
from .values import SHAPES

if TYPE_CHECKING:
    from typing import Callable, Dict, Iterable, List, Optional, Set, Union

    from .names import Names

    # The names in Python of variables.
    Scope = Dict[str, str]

# The types of what a document is read as. What one of them is asked of alone is kept for the next time, since it is asked often.
READ = {"Data", "GraphDraft", "DocumentDraft", "GraphData", "PlanData"}
INDENT = "    "


class Compiler:
    """The text of functions. `used` are the variants in it; `counted` makes each variable's name its own."""

    used: Set[str]
    file: Optional[str]

    def __init__(self, names: Names) -> None:
        self.names, self.used, self.counted, self.has_closure, self.file = names, set(), 0, False, None
        items: List[Union[tree.Definition, code.Constant]] = [*names.definitions, *names.constants]
        self.python = {id(item): f"d_{plain(item.name)}_{number}" for number, item in enumerate(items)}

    def fresh(self, name: str) -> str:
        self.counted += 1
        return f"{plain(name)}_{self.counted}"

    # ---- definitions

    def definition(self, item: tree.Definition) -> List[str]:
        """The lines of the function of a definition. One that ends by asking itself goes round a loop, unless a function in it would
        see the variables change."""
        self.file, self.has_closure = item.file, False
        lines = self.function(item, has_loop=True)
        return self.function(item, has_loop=False) if self.has_closure else lines

    def function(self, item: tree.Definition, has_loop: bool) -> List[str]:
        name, given = self.python[id(item)], [self.fresh("given") for _ in range(item.arity())]
        head = "@constant" if not given else "@kept" if len(given) == 1 and item.words[0] in READ and item.words[1] == "→" else None
        lines = [*([head] if head else []), f"def {name}({', '.join(given)}):"]
        closing = Ends(self, item, given if has_loop else None)
        begin = INDENT
        if has_loop and given:
            lines += closing.begin()
            begin += INDENT
        for equation in item.equations:
            if len(equation.patterns) != len(given):
                raise Unknown(equation.at, f"an equation of {item.name} with another number of arguments")
            scope: Scope = {}
            steps: List[str] = []
            wanted = tree.free(equation.body)
            for pattern, value in zip(equation.patterns, given):
                self.match(pattern, value, scope, wanted, steps)
            margin = begin
            for step in steps:
                lines.append(margin + step)
                margin += INDENT if step.startswith("if ") else ""
            lines += closing.lines(equation.body, scope, margin)
            if margin == begin:
                return lines
        return [*lines, f"{begin}raise Unfit({item.name!r}, {item.at})"]

    def constant(self, item: code.Constant) -> List[str]:
        """The lines of a constant of the code: a number, or a list of variants."""
        value = item.value if isinstance(item.value, int) else f"({' '.join(self.variant(name, 0, []) + ',' for name in item.value)})"
        return ["@constant", f"def {self.python[id(item)]}():", f"{INDENT}return {value}"]

    # ---- patterns

    def match(self, pattern: tree.Pattern, value: str, scope: Scope, wanted: Set[str], steps: List[str]) -> None:
        """The steps that see if a value has a pattern, each an `if` or an assignment, and the variables that it binds."""
        if isinstance(pattern, tree.Binds) and not self.names.is_plain(pattern.name):
            if pattern.name in wanted:
                scope[pattern.name] = self.held(value, pattern.name, steps)
            return
        word, name, fields = getattr(pattern, "word", None), pattern.name, getattr(pattern, "fields", [])
        count = self.names.count_of(word, name, self.file, pattern.at) if word else self.names.count(name, len(fields), pattern.at)
        if count != len(fields):
            raise Unknown(pattern.at, f"the variant {name} has {count} fields, and not {len(fields)}")
        value = self.held(value, "seen", steps)
        shape = SHAPES.get(name)
        test = shape.test.format(value) if shape else f"{value}[0] is {self.tag(name)}"
        steps.append(f"if {test}:")
        for at, field in enumerate(fields):
            self.match(field, shape.fields[at].format(value) if shape else f"{value}[{at + 1}]", scope, wanted, steps)

    def held(self, value: str, name: str, steps: List[str]) -> str:
        """A variable that holds a value."""
        if not value.isidentifier():
            made = self.fresh(name)
            steps.append(f"{made} = {value}")
            return made
        return value

    # ---- expressions

    def expression(self, node: tree.Expression, scope: Scope) -> str:
        make: Callable[[tree.Expression, Scope], str] = getattr(self, f"of_{type(node).__name__.lower()}")
        return make(node, scope)

    def of_number(self, node: tree.Number, _scope: Scope) -> str:
        return str(node.value)

    def of_text(self, node: tree.Text, _scope: Scope) -> str:
        return repr(node.value)

    def of_name(self, node: tree.Name, scope: Scope) -> str:
        return self.called(node, [], scope)

    def of_variant(self, node: tree.Variant, scope: Scope) -> str:
        return self.called(node, [], scope)

    def of_apply(self, node: tree.Apply, scope: Scope) -> str:
        if isinstance(node.function, tree.Name) and node.function.name == "codes" and isinstance(node.given[0], tree.Text):
            return repr(library.codes(node.given[0].value))
        if isinstance(node.function, tree.Name) and node.function.name == "◌∷◌":
            return self.list(node, scope)
        return self.called(node.function, [self.expression(it, scope) for it in node.given], scope)

    def list(self, node: tree.Apply, scope: Scope) -> str:
        """A list whose first elements are there."""
        firsts = []
        while isinstance(node, tree.Apply) and isinstance(node.function, tree.Name) and node.function.name == "◌∷◌":
            firsts.append(self.expression(node.given[0], scope) + ",")
            node = node.given[1]
        others = self.expression(node, scope)
        return f"({' '.join(firsts)})" if others == "()" else f"(({' '.join(firsts)}) + {others})"

    def of_lambda(self, node: tree.Lambda, scope: Scope) -> str:
        self.has_closure = True
        names = [self.fresh(name) for name in node.names]
        body = self.expression(node.body, {**scope, **dict(zip(node.names, names))})
        return f"({''.join(f'lambda {name}: ' for name in names)}{body})"

    def of_let(self, node: tree.Let, scope: Scope) -> str:
        name = self.fresh(node.name)
        self.has_closure = True
        return f"(lambda {name}: {self.expression(node.body, {**scope, node.name: name})})({self.expression(node.value, scope)})"

    def of_if(self, node: tree.If, scope: Scope) -> str:
        test, yes, no = (self.expression(it, scope) for it in (node.test, node.yes, node.no))
        return f"({yes} if {test} else {no})"

    def of_tuple(self, node: tree.Tuple, scope: Scope) -> str:
        return f"Pair(({', '.join(self.expression(it, scope) for it in node.items)}))"

    def of_record(self, node: tree.Record, scope: Scope) -> str:
        base = [f"**{self.expression(node.base, scope)}"] if node.base else []
        return "{" + ", ".join(base + [f"{name!r}: {self.expression(it, scope)}" for name, it in node.fields]) + "}"

    def of_field(self, node: tree.Field, scope: Scope) -> str:
        return f"{self.expression(node.record, scope)}[{int(node.name) if node.name.isdecimal() else repr(node.name)}]"

    # ---- calls

    def called(self, function: tree.Expression, given: List[str], scope: Scope) -> str:
        """A function of these arguments."""
        if isinstance(function, tree.Variant):
            return self.variant(function.name, self.names.count_of(function.word, function.name, self.file, function.at), given)
        if not isinstance(function, tree.Name):
            return self.expression(function, scope) + each(given)
        if function.name in scope:
            return scope[function.name] + each(given)
        name, item = function.name, self.names.value(function.name, self.file, function.at)
        if isinstance(item, code.Constant):
            return f"{self.python[id(item)]}()" + each(given)
        if item:
            return self.applied(lambda args: f"{self.python[id(item)]}({', '.join(args)})", item.arity(), given)
        shape = name.strip("◌")
        if name in self.names.fields or shape in self.names.fields:
            return self.variant(shape, self.names.count(shape, len(given), function.at), given)
        if name in library.IN_PLACE:
            template = library.IN_PLACE[name][0]
            return self.applied(lambda args: template.format(*args), template.count("{"), given)
        if name in library.FUNCTIONS:
            made = library.FUNCTIONS[name]
            count = len(inspect.signature(made).parameters)
            return self.applied(lambda args: f"{made.__name__}({', '.join(args)})", count, given)
        if name in library.CONSTANTS:
            return str(library.CONSTANTS[name]) + each(given)
        raise Unknown(function.at, f"nothing says what {name} is")

    def variant(self, name: str, count: int, given: List[str]) -> str:
        if name in SHAPES:
            made = SHAPES[name].made
            return self.applied(lambda args: made.format(*args), count, given)
        made = self.tag(name)
        return self.applied(lambda args: f"({made}, {', '.join(args)})" if args else f"V{made}", count, given)

    def tag(self, name: str) -> str:
        self.used.add(name)
        return f"T_{name}"

    def applied(self, make: Callable[[List[str]], str], count: int, given: List[str]) -> str:
        """A call with all its arguments and what is applied to its answer; or, with too few, the function of those that are missing."""
        if len(given) >= count:
            return make(given[:count]) + each(given[count:])
        self.has_closure = True
        missing = [self.fresh("missing") for _ in range(count - len(given))]
        held = [it if it.isidentifier() or it.isdigit() else self.fresh("held") for it in given]
        bound = [(name, it) for name, it in zip(held, given) if name != it]
        made = f"({''.join(f'lambda {name}: ' for name in missing)}{make([*held, *missing])})"
        return f"(lambda {', '.join(name for name, _ in bound)}: {made})({', '.join(it for _, it in bound)})" if bound else made


class Ends:
    """The lines that end a function: a `return`, or one step round its loop, whose variables are `given`. Where a function ends by a
    list whose first element is there and whose others it asks itself for, the loop keeps the first in `made`."""

    def __init__(self, compiler: Compiler, item: tree.Definition, given: Optional[List[str]]) -> None:
        self.compiler, self.item, self.given = compiler, item, given
        self.has_made = bool(given) and any(self.rest_of(end, {}) for equation in item.equations for end in ends(equation.body))

    def begin(self) -> List[str]:
        return [f"{INDENT}made = []"] * self.has_made + [f"{INDENT}while True:"]

    def lines(self, node: tree.Expression, scope: Scope, margin: str) -> List[str]:
        make = self.compiler.expression
        if isinstance(node, tree.If):
            yes, no = self.lines(node.yes, scope, margin + INDENT), self.lines(node.no, scope, margin)
            return [f"{margin}if {make(node.test, scope)}:", *yes, *no]
        if isinstance(node, tree.Let):
            name = self.compiler.fresh(node.name)
            return [f"{margin}{name} = {make(node.value, scope)}", *self.lines(node.body, {**scope, node.name: name}, margin)]
        rest = self.rest_of(node, scope)
        if rest and isinstance(node, tree.Apply):
            return [f"{margin}made.append({make(node.given[0], scope)})", *self.again(rest, scope, margin)]
        if isinstance(node, tree.Apply) and self.asks_itself(node, scope):
            return self.again(node, scope, margin)
        return [f"{margin}return {'tuple(made) + ' * self.has_made}{make(node, scope)}"]

    def again(self, node: tree.Apply, scope: Scope, margin: str) -> List[str]:
        values = ", ".join(self.compiler.expression(it, scope) for it in node.given)
        return [f"{margin}{', '.join(self.given or [])}, = {values},", f"{margin}continue"]

    def rest_of(self, node: tree.Expression, scope: Scope) -> Optional[tree.Apply]:
        """What an expression asks of its own function, where it is that behind a first element."""
        if not isinstance(node, tree.Apply) or not isinstance(node.function, tree.Name) or node.function.name != "◌∷◌":
            return None
        rest = node.given[1]
        return rest if isinstance(rest, tree.Apply) and self.asks_itself(rest, scope) else None

    def asks_itself(self, node: tree.Expression, scope: Scope) -> bool:
        if not self.given or not isinstance(node, tree.Apply) or not isinstance(node.function, tree.Name) or len(node.given) != len(self.given):
            return False
        name = node.function.name
        return name not in scope and self.compiler.names.value(name, self.item.file, self.item.at) is self.item


def ends(node: tree.Expression) -> List[tree.Expression]:
    """The expressions with one of which another one ends."""
    if isinstance(node, tree.If):
        return [*ends(node.yes), *ends(node.no)]
    return ends(node.body) if isinstance(node, tree.Let) else [node]


def each(given: Iterable[str]) -> str:
    return "".join(f"({it})" for it in given)


def plain(name: str) -> str:
    return re.sub(r"\W", "_", name, flags=re.ASCII)


