"""The functions of a Rattle source file with their parameters, clauses and bodies, as far as the checks of tests/ need them."""

import re
from pathlib import Path
from typing import NamedTuple

ROOT = Path(__file__).resolve().parent.parent
OPENING, CLOSING = "([{", ")]}"
FUNCTION = re.compile(r'^[ \t]*(?P<before>(?:pub(?:\([^)]*\))? +|const +|extern "C" +)*)fn +(?P<name>\w+)', re.MULTILINE)
# An impl of a type, also of a trait for it, or a trait.
IMPL = re.compile(r"^(?:impl(?: *<[^>]*>)? +(?P<of>[\w:]+(?:<[^{]*>)? +for +)?|(?P<trait>pub +)?trait +)(?P<type>\w+)[^\n]*\{$"
                  r"(?P<body>.*?)^\}$", re.MULTILINE | re.DOTALL)
CLAUSE = re.compile(r"\s*(?P<kind>requires|ensures)\b\s*(?P<label>\w*)\s*\{")
COMMENT = r"//[^\n]*|/\*.*?\*/"
LITERAL = r"""\bb(?:'(?:\\.|[^'\\])'|"(?:\\.|[^"\\])*")"""


class Function(NamedTuple):
    name: str  # `Type::name` for a method, also of a trait's impl for the type; `Trait::name` for one that a trait declares
    public: bool
    parameters: tuple  # (name, type); a method's first is ("self", "self")
    requires: tuple  # what stands between the braces of each
    ensures: tuple
    body: str  # what stands between its braces
    of_trait: bool  # whether it is an impl's of a trait, whose promise it has


def without_comments(text):
    """A text without its comments, and with a 0 for each byte or string, which could look like one or have a bracket."""
    return re.sub("%s|(?P<literal>%s)" % (COMMENT, LITERAL), lambda found: "0" if found["literal"] else "", text, flags=re.DOTALL)


def closing(text, at):
    """The index after the bracket that closes the one at `at`."""
    depth = 0
    for k in range(at, len(text)):
        depth += (text[k] in OPENING) - (text[k] in CLOSING)
        if depth == 0:
            return k + 1
    raise ValueError("a bracket is not closed: " + text[at:at + 60])


def after_generics(text, at):
    """The index after the parameters in angle brackets that a name may have; an arrow closes none."""
    if text[at] != "<":
        return at
    depth = 0
    for k in range(at, len(text)):
        depth += (text[k] == "<") - (text[k] == ">" and text[k - 1] != "-")
        if depth == 0:
            return k + 1
    raise ValueError("an angle bracket is not closed: " + text[at:at + 60])


def split_at_commas(text):
    """The parts of a text between commas that stand in no bracket."""
    parts, depth = [""], 0
    for c in text:
        depth += (c in OPENING + "<") - (c in CLOSING + ">")
        if c == "," and depth == 0:
            parts.append("")
        else:
            parts[-1] += c
    return [" ".join(part.split()) for part in parts if part.strip()]


def parameter(text):
    """(name, type) of `name: type`, or of the ways to write self."""
    name, colon, kind = text.partition(":")
    if not colon:
        return "self", text
    return name.replace("mut ", "").strip(), kind.strip()


def after_parameters(text, at):
    """The requires, the ensures and the body that follow a parameter list."""
    start = re.compile(r"\s(?:requires|ensures)\b|[{;]").search(text, closing_type(text, at))
    at, found = start.start(), {"requires": [], "ensures": []}
    while clause := CLAUSE.match(text, at):
        end = closing(text, clause.end() - 1)
        found[clause["kind"]].append(" ".join(text[clause.end():end - 1].split()))
        at = end
    return tuple(found["requires"]), tuple(found["ensures"]), body(text, at)


def body(text, at):
    """What stands between the braces that come next; nothing where a function is only declared."""
    opening = re.compile(r"\s*[{;]").match(text, at)
    if opening is None:
        raise ValueError("neither a body nor a semicolon: " + text[at:at + 60])
    return " ".join(text[opening.end():closing(text, opening.end() - 1) - 1].split()) if opening[0].endswith("{") else ""


def closing_type(text, at):
    """The index after a result type that starts with a bracket, such as `[u32; 24]`; otherwise `at`."""
    array = re.compile(r"\s*->\s*(?=[(\[])").match(text, at)
    return closing(text, array.end()) if array else at


def functions(text):
    """Every function of a source file."""
    text = without_comments(text)
    spans = [(m.start("body"), m.end("body"), m) for m in IMPL.finditer(text)]
    found = []
    for match in FUNCTION.finditer(text):
        within = next((span for low, high, span in spans if low <= match.start() < high), None)
        opening = text.index("(", after_generics(text, match.end()))
        end = closing(text, opening)
        parameters = tuple(map(parameter, split_at_commas(text[opening + 1:end - 1])))
        public = re.search(r"\bpub(?!\()", match["before"]) is not None or within is not None and within["trait"] is not None
        name = (within["type"] + "::" if within else "") + match["name"]
        found.append(Function(name, public, parameters, *after_parameters(text, end), within is not None and within["of"] is not None))
    if [f.name.split("::")[-1] for f in found] != re.findall(r"\bfn +(\w+)", text):
        raise ValueError("a function stands in a form that tests/rattle_source.py does not read")
    return found


class Impl(NamedTuple):
    """A block that gives a trait to a type."""

    trait: str
    type: str
    ghosts: dict  # what each ghost member is, by its name
    functions: tuple


GHOST = re.compile(r"^ +ghost +(?P<name>\w+) *= *\{", re.MULTILINE)


def impls(text):
    """Every impl of a trait in a source file."""
    text = without_comments(text)
    found = []
    for match in IMPL.finditer(text):
        if match["of"]:
            body = match["body"]
            ghosts = {g["name"]: " ".join(body[g.end():closing(body, g.end() - 1) - 1].split()) for g in GHOST.finditer(body)}
            trait = re.match(r"[\w:]+", match["of"])[0].rpartition("::")[-1]
            found.append(Impl(trait, match["type"], ghosts, tuple(functions(match[0]))))
    return found


def impls_of(crate):
    """Every impl of a trait in a crate, of all its source files."""
    return [i for path in sorted((ROOT / "crates" / crate / "src").rglob("*.rt")) for i in impls(path.read_text(encoding="utf-8"))]


def library_crates():
    """The names of the crates that are libraries."""
    return sorted(path.parent.parent.name for path in (ROOT / "crates").glob("*/src/lib.rt"))


def functions_of(crate):
    """Every function of a crate, of all its source files."""
    return [f for path in sorted((ROOT / "crates" / crate / "src").rglob("*.rt")) for f in functions(path.read_text(encoding="utf-8"))]
