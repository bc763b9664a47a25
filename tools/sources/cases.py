"""A crate whose check has the prover compute, by the definitions of the headline, what documents are answered."""
import re
import typing

# The codes of refusals as the definitions name them, from 1 on.
CODES = ("NotJson", "Shape", "Version", "Name", "Limit", "Script", "GroupVariable", "Clock", "Id")
REFUSED = re.compile(rb"(?:refused )?([1-9])\n?")
LONGEST = 100
# The line of crates.txt of such a crate: what its definitions name, and what that names.
BELOW = "exec_msg exec_script exec_goal exec_task exec_plan exec_doc exec_rules"


class Case(typing.NamedTuple):
    """A document with what it is answered: the text of its transcript, or the number of the code that refuses it."""

    name: str
    file: str
    document: bytes
    answer: typing.Union[bytes, int]

    def clause(self):
        """What the prover computes."""
        if isinstance(self.answer, int):
            return f"refusal_of worked.{self.name}_document ≡ Some code.{CODES[self.answer - 1]}"
        return f"transcript_of worked.{self.name}_document ≡ Some worked.{self.name}_transcript"

    def is_said(self):
        """The case as a sentence."""
        if isinstance(self.answer, int):
            return f"`{self.file}` is refused with the code {self.answer}."
        return f"`{self.file}` has this transcript."

    def definitions(self):
        said = [("document", self.document)]
        if not isinstance(self.answer, int):
            said.append(("transcript", self.answer))
        lines = [f"-- {self.file}"]
        for what, text in said:
            lines += [f"abbrev pub {self.name}_{what} : List ℕ", f"{self.name}_{what} =", spelled(text), ""]
        return lines


def answer_of(path):
    """What a file says that a document is answered: a transcript, or the code of a file NAME.refused."""
    text = path.read_bytes()
    if path.suffix != ".refused":
        return text
    code = REFUSED.fullmatch(text)
    if not code:
        raise ValueError(f"{path} has no code from 1 to 9")
    return int(code[1])


def spelled(text):
    """Bytes as a list: what can be printed as literals, a line of the text on a line where it isn't too long."""
    lines = []
    for line in text.splitlines(keepends=True):
        for part in re.findall(rb"[ -~]{1,%d}|[^ -~]" % LONGEST, line):
            is_literal = b" " <= part[:1] <= b"~"
            lines.append(f"    {literal(part)} ++" if is_literal else f"    {part[0]} ∷")
            if part == b"\n" and len(lines) > 1 and lines[-2].endswith("++"):
                lines[-2:] = [f"{lines[-2]} 10 ∷"]
    return "\n".join([*lines, "    []"])


def literal(text):
    return 'codes "' + re.sub(r'(["\\])', r"\\\1", text.decode("ascii")) + '"'


# ---- the files of the crate

ANSWER = """-- What a document is answered by the definitions.
use Rattle.std.specs.Prelude.{ℕ, List, Option}
use Rattle.std.specs.Option.{option_map}
use Rattle.exec_doc.specs.Document.{document_of}
use Rattle.exec_rules.specs.Transcript.{text_of}

-- the transcript of the plan that bytes say, if they say one
abbrev pub transcript_of : List ℕ → Option (List ℕ)
transcript_of bytes = option_map text_of (document_of bytes)
"""

UNFOLDED = """-- What an answer unfolds to compute the transcript of a literal document.
use Rattle.std.specs.Prelude.{⊤}
use Rattle.std.specs.Fmt.{digits}
use Rattle.exec_msg.specs.Line.{id_text}
use Rattle.exec_doc.proofs.OnLiterals.{document_on_literals}

unfoldable pub transcript_on_literals : ⊤
unfolding document_on_literals digits id_text
transcript_on_literals = tt
"""


def crate(name, head, groups):
    """The files of a crate of this name, by their paths in its folder. Each group of cases is a function."""
    modules = sorted(groups)
    files = {
        "src/lib.rt": "\n".join([*(f"//! {line}" for line in head), "#![tactic(auto)]", "", *(f"pub mod {group};" for group in modules), ""]),
        "specs/Lib.antt": "\n".join(["pub mod Answer", *(f"pub mod {titled(group)}" for group in modules), ""]),
        "specs/Answer.antt": ANSWER,
        "proofs/Lib.antt": "pub mod OnLiterals\n",
        "proofs/OnLiterals.antt": UNFOLDED,
    }
    for group in modules:
        files[f"src/{group}.rt"] = code(name, group, groups[group])
        files[f"specs/{titled(group)}.antt"] = definitions(group, groups[group])
        files[f"proofs/{group}/{group}_cases/Answers.antt"] = answers(name, group, groups[group])
    return files


def titled(group):
    return "".join(part.capitalize() for part in group.split("_"))


def code(name, group, cases):
    """A function without a body. Its contract has a clause for each case."""
    asked = {type(it.answer) for it in cases}
    lines = [f"//! Worked cases: {group}.", "ghost use Rattle.std.specs.Prelude.{◌≡◌, Some};"]
    if int in asked:
        lines.append("ghost use Rattle.exec_doc.specs.Refusals.{refusal_of};")
        lines.append("ghost use Rattle.exec_doc.specs.declared.refused.Refused.TheVariants as code;")
    if bytes in asked:
        lines.append(f"ghost use Rattle.{name}.specs.Answer.{{transcript_of}};")
    lines.append(f"ghost use Rattle.{name}.specs.{titled(group)} as worked;")
    lines += ["", *(f"/// - `{it.name}`: {it.is_said()}" for it in cases), f"pub fn {group}_cases()"]
    lines += [f"    ensures {it.name} {{ {it.clause()} }}" if len(cases) > 1 else f"    ensures {{ {it.clause()} }}" for it in cases]
    return "\n".join([*lines, "{}", ""])


def definitions(group, cases):
    lines = [f"-- Worked cases: {group}.", "use Rattle.std.specs.Prelude.{ℕ, List, [], ◌∷◌, ◌++◌, codes}", ""]
    for it in cases:
        lines += it.definitions()
    return "\n".join(lines)


def answers(name, group, cases):
    place = f"Rattle.{name}.proofs"
    lines = [
        "use Rattle.std.proofs.Common.{refl}",
        f"use {place}.OnLiterals.{{transcript_on_literals}}",
        f"use {place}.{group}.{group}_cases.Goals as goal",
    ]
    for it in cases:
        goal = f"returns-clause-{it.name}" if len(cases) > 1 else "returns"
        lines += ["", f"pub {goal} : goal.{goal}", "unfolding transcript_on_literals", f"{goal} c = refl"]
    return "\n".join([*lines, ""])


def there(folder):
    """The files of a crate that are there, by their paths in its folder."""
    found = [path for part in ("src", "specs", "proofs") for path in sorted((folder / part).rglob("*")) if path.is_file()]
    return [path.relative_to(folder).as_posix() for path in found]


def differing(folder, files):
    """The files that a crate lacks, has beside these, or has otherwise."""
    lacking = [name for name, text in files.items() if not (folder / name).is_file() or (folder / name).read_text() != text]
    return lacking + [name for name in there(folder) if name not in files]


def write(folder, files):
    """Has a crate have these files and no others. What is as it should be is left alone."""
    for name in differing(folder, files):
        path = folder / name
        if name not in files:
            path.unlink()
            continue
        path.parent.mkdir(parents=True, exist_ok=True)
        path.write_text(files[name])
