"""Checks docs/TRACE.md: what stands in backticks in its tables exists, every row is full, and no line is too long.

    python3 tests/check_trace.py               docs/TRACE.md
    python3 tests/check_trace.py --self-test   a small text, in which only what is defined must be found

    `cct/Answers#answer`   the name that Answers.antt of crates/cct defines: in specs, else in specs/Code, else in proofs
    `cct/Answers`          that file
    `cct::whole_answer`    the function, `cct::Type::name` a method, `cct::Type` a type or constant of crates/cct/src
    `cct@whole_answer`     the function's proof: what stands in the folder of its name in crates/cct/proofs, and where there is none
                           what the check finds by itself for a function with a promise, in a crate that has it try its tactics
    `cct!fixed_place`      the must-fail edit crates/cct/must-fail/fixed_place.edit
    `tests/fuzz`           a path

Several names after one mark are separated by commas: `cct::whole_answer, float_answer`. Outside backticks `vectors uv, xy`
stands for lines of crates/vectors/stdin by their first word, and there must be some."""

import re
import sys
from pathlib import Path

sys.dont_write_bytecode = True

from rattle_source import functions_of, without_comments

ROOT = Path(__file__).resolve().parent.parent
CRATES = ROOT / "crates"
TRACE = ROOT / "docs" / "TRACE.md"
LONGEST_LINE = 200
TOKEN = re.compile(r"(?P<crate>\w+)(?:/(?P<file>\w+)(?:#(?P<names>.+))?|(?P<mark>::|@|!)(?P<items>.+))")


PROOF_FILES = ("Invariants.antt", "Answers.antt", "Proof.antt")
TACTICS = re.compile(r"^#!\[tactic\(auto\b", re.MULTILINE)
DECLARED = re.compile(r"(?:pub +)?(?:record|data) +(?P<name>\S+)")
SIGNED = re.compile(r"(?:(?:abbrev|unfoldable|pub) +)*(?P<name>\S+) +:(?= |$)")
HOLDS_DEFINITIONS = re.compile(r"(?:pub +)?(?:record|data|module)\b")


def defined_names(text):
    """The names that an .antt text defines: signatures, records and data with their fields and constructors, in modules too.

    A name inside a definition's own body, in a comment or in a `use` line is none of them."""
    found, levels = set(), [[-1, 0]]  # the indent of each line that holds definitions, and the indent of those
    for line in re.sub(r"\{-.*?-\}", "", text, flags=re.DOTALL).splitlines():
        code = re.sub(r"(?:^|\s)--.*", "", line).rstrip()
        words = code.lstrip(" ")
        indent = len(code) - len(words)
        if not words:
            continue
        while levels[-1][0] >= indent:
            levels.pop()
        levels[-1][1] = indent if levels[-1][1] is None else levels[-1][1]
        if indent != levels[-1][1]:
            continue
        match = DECLARED.match(words) or SIGNED.match(words)
        found |= {match["name"]} if match else set()
        if HOLDS_DEFINITIONS.match(words):
            levels.append([indent, None])
    return found


def file_fault(crate, file, names):
    """What is missing of names in a file of specs/, else of specs/Code/, else of proofs/."""
    paths = (CRATES / crate / folder / (file + ".antt") for folder in ("specs", "specs/Code", "proofs"))
    found = next((path for path in paths if path.is_file()), None)
    if found is None:
        return "no file of that name in specs/, specs/Code/ or proofs/"
    defined = defined_names(found.read_text(encoding="utf-8"))
    missing = [name for name in names if name not in defined]
    return "%s does not define %s" % (found.relative_to(ROOT), ", ".join(missing)) if missing else None


def source_fault(crate, name):
    """What is missing of a function, a type or a constant of src/."""
    if name in {function.name for function in functions_of(crate)}:
        return None
    text = without_comments("\n".join(path.read_text(encoding="utf-8") for path in (CRATES / crate / "src").rglob("*.rt")))
    if re.search(r"^ *(?:pub(?:\([^)]*\))? +)?(?:struct|enum|const) +%s\b" % re.escape(name), text, re.MULTILINE):
        return None
    return "crates/%s/src has no %s" % (crate, name)


def item_fault(crate, mark, name):
    """What is missing of one name after `::`, `@` or `!`."""
    if mark == "::":
        return source_fault(crate, name)
    if mark == "!":
        return None if (CRATES / crate / "must-fail" / (name + ".edit")).is_file() else "no such must-fail edit"
    return source_fault(crate, name) or proof_fault(crate, name)


def proof_fault(crate, name, tactics=TACTICS):
    """What is missing of the proof of a function that is there."""
    owner, _, last = name.rpartition("::")
    files = (path for file in PROOF_FILES for path in (CRATES / crate / "proofs").rglob(file))
    folders = {path.parent for path in files if path.parent.name.lstrip("+") == last and is_folder_of(owner, path.parent.parent.name)}
    if len(folders) > 1:
        return "%d proofs of that name" % len(folders)
    promises = any(function.ensures or function.of_trait for function in functions_of(crate) if function.name == name)
    roots = (CRATES / crate / "src" / file for file in ("lib.rt", "main.rt"))
    by_itself = promises and any(tactics.search(root.read_text(encoding="utf-8")) for root in roots if root.is_file())
    return None if folders or by_itself else "no proof of that name, and nothing that is proved without one"


def is_folder_of(owner, folder):
    """Whether a folder of proofs can be that of a type, also of a trait's impl for it, which it then begins."""
    return folder.casefold().startswith(owner.rpartition("::")[-1].casefold())


def parts(token):
    """(crate, file, mark, names) of a token that names something of a crate; None for any other."""
    match = TOKEN.fullmatch(token)
    if not match or not (CRATES / match["crate"]).is_dir():
        return None
    names = [name.strip() for name in (match["names"] or match["items"] or "").split(",") if name.strip()]
    return match["crate"], match["file"], match["mark"], names


def faults_of(token):
    """What is missing of what a token names."""
    split = parts(token)
    if split is None:
        return [] if (ROOT / token).exists() else ["no such path"]
    crate, file, mark, names = split
    found = [file_fault(crate, file, names)] if file else [item_fault(crate, mark, name) for name in names]
    return [fault for fault in found if fault]


def tokens(text):
    return re.findall(r"`([^`]+)`", text)


def named_functions(text):
    """Every `crate::name` that a text names."""
    split = filter(None, map(parts, tokens(text)))
    return {"%s::%s" % (crate, name) for crate, _, mark, names in split if mark == "::" for name in names}


def vector_faults(cell, kinds):
    """The kinds of vectors that a cell names and that do not exist."""
    named = re.match(r"vectors (\w+(?:, \w+)*)", cell)
    return ["no vectors `%s`" % kind for kind in named[1].split(", ") if kind not in kinds] if named else []


def rows(text):
    """(line number, cells, cells of the table's heading) of each row of a table, the rule under the heading left out."""
    width = None
    for number, line in enumerate(text.splitlines(), 1):
        if not line.startswith("|"):
            width = None
        elif not re.fullmatch(r"[|\s:-]+", line):
            cells = [cell.strip() for cell in line.strip().strip("|").split("|")]
            width = width or len(cells)
            yield number, cells, width


def row_faults(number, cells, width, kinds):
    if len(cells) != width or "" in cells:
        yield "line %d: a row of this table has %d cells, each with something in it" % (number, width)
    for cell in cells:
        yield from ("line %d: %s" % (number, fault) for fault in vector_faults(cell, kinds))
    for token in tokens(" ".join(cells)):
        for fault in faults_of(token):
            yield "line %d: `%s`: %s" % (number, token, fault)


def long_lines(text):
    lengths = enumerate(map(len, text.splitlines()), 1)
    too_long = (pair for pair in lengths if pair[1] > LONGEST_LINE)
    return ["line %d has %d characters; %d is the most" % (*pair, LONGEST_LINE) for pair in too_long]


# What it defines has `is` in its name; no other name of it is defined.
SAMPLE = """
-- no-1 : a comment
{- no-2 : a longer
no-3 : comment -}
use lib.no-4.{no-5, no-6}
infix 5 _no-7_
is-1 : ℕ → ℕ
is-1 no-8 =
    let no-9 : ℕ = no-8 in
    no-10 no-9
  where
    no-10 : ℕ → ℕ
    no-10 n = n
abbrev pub is-2 : ℕ
is-2 = no-11 -- no-12 : at the end
unfoldable pub _is-3_ :
    ℕ → ℕ
pub record Is4 (no-13 : ℕ) : Type 0 where
  -- no-14 : a comment
  pub is-5 : ℕ
pub data Is6 : Type 0 where
  is-7 : (no-15 : ℕ) → Is6
module _ (no-16 : ℕ) where
  pub is-8 : ℕ
  is-8 = no-17
    where
      no-18 : ℕ
  record Is9 : Type 0 where
    is-10 : ℕ
no-19 = is-1
"""


def self_test():
    """What the sample defines is found and nothing else; a signature of another name is missed."""
    found = defined_names(SAMPLE)
    expected = {name for name in re.findall(r"[\w-]+", SAMPLE) if re.fullmatch(r"_?[iI]s-?\d+_?", name)}
    assert found == expected and len(found) == 10, (found - expected, expected - found)
    renamed = SAMPLE.replace("is-1 :", "was-1 :")
    assert "is-1" in renamed and defined_names(renamed) == expected - {"is-1"} | {"was-1"}
    # a proof that is found by itself, one with files, and none: a function that is missing, a type, one that promises nothing
    assert item_fault("arith", "@", "nearest_quotient") is None and item_fault("arith", "@", "root_by_bits") is None
    for crate, name in (("arith", "greater"), ("board", "Board"), ("cradlekeel", "say"), ("reading", "Reading::number")):
        assert item_fault(crate, "@", name), (crate, name)
    none = re.compile("no such line")
    assert proof_fault("arith", "nearest_quotient", none) and not proof_fault("arith", "root_by_bits", none)
    # a method of a trait that an impl has, and the folder of one impl, which is no other's
    assert item_fault("reading", "@", "Micro::convert") is None
    assert is_folder_of("Reading", "ReadingSource") and is_folder_of("u8", "U8FromRefusal") and not is_folder_of("Micro", "ReadingSource")
    print("check_trace: the self-test found the %d names that are defined" % len(found))


def main():
    if sys.argv[1:] == ["--self-test"]:
        return self_test()
    if sys.argv[1:]:
        sys.exit(__doc__)
    text = TRACE.read_text(encoding="utf-8")
    table = list(rows(text))
    kinds = {line.split()[0] for line in (CRATES / "vectors" / "stdin").read_text().splitlines()}
    faults = long_lines(text) + [fault for row in table for fault in row_faults(*row, kinds)]
    for line in faults:
        print("docs/TRACE.md " + line, file=sys.stderr)
    count = sum(len(tokens(" ".join(cells))) for _, cells, _ in table)
    if faults or not count:
        sys.exit("check_trace: %d faults in %d names" % (len(faults), count))
    print("check_trace: %d rows, %d names exist" % (len(table), count))


if __name__ == "__main__":
    main()
