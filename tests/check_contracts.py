"""Checks that no promise has gone missing: the contract of every public function of the library crates.

    python3 tests/check_contracts.py               the crates and docs/TRACE.md
    python3 tests/check_contracts.py --self-test   small texts, each with one fault, which must be found

Of every public function, and of every one that a public trait declares: it has an `ensures`; the result is given by an equation,
`result ≡ ..`; it has no `requires`; what is lent by `&` is said to be unchanged, `x.exit.now ≡ x.entry.now`, in a promise of its own,
as one of several joined by `×` or as one of `columns`, and what columns hold as `held x.exit ≡ held x.entry`; what is lent by `&mut`
is spoken of as `.new`; docs/TRACE.md names it. Every promise is an equation: of the result, of what `&mut` lends as it is at the
end, or of what `&` lends as unchanged. Of each impl of From, TryFrom and Source: what it gives is an equation in its ghost member, what
`Samples` lends is said to be unchanged, and docs/TRACE.md names its function. Of the functions of an entry crate also: each parameter is spoken of. What departs from this stands
below with its reason and must still be needed; a promise that is no equation, and a `requires` of an entry crate, must be, word for
word, the one that stands here. Of the functions in WITHOUT_MULTIPLY, and of all that they call: no body has a `*`, a `/` or a `%`,
and all that is called is of their own crate, by its plain name. Of those in WITHOUT_DIVISION: no body has a `/` or a `%`, in whatever
crate of ours, and nothing else is called but the methods of CALLS_ONLY, where none of ours has such a name, and what stands beside the
function as left to others. A function that is handed on, by its path or by its plain name, counts as called, and so does any value that has
the name of a function."""

import re
import sys
from typing import NamedTuple

sys.dont_write_bytecode = True

from check_trace import TRACE, named_functions
from rattle_source import functions, functions_of, impls, impls_of, library_crates

ENTRY_CRATES = ("board", "cct", "cct_c", "compare", "kept", "nearest", "records", "salvage", "text")

# Functions with a `requires`, and why.
REQUIRES = {
    "locus::Locus::point_at": "only places of the locus have a point",
    "locus::Locus::span_about": "entries are numbered from 1 to 24",
    "locus::Span::distance_at": "a span made for its places, and coordinates whose squares fit 64 bits",
    "locus::Span::point_at": "a span made for its places",
    "locus::squared_difference": "coordinates whose squares fit 64 bits",
    "search::run": "an admitted reading with the span about its entry, as admit and span_about hand them over",
    "table::ReadyTable::nearest": "an admitted reading with its distance, as admit hands it over",
}

# Functions of entry crates with a `requires`, of which there are none: all that they require, word for word, and why.
ENTRY_REQUIRES = {}

# Promises that are no equation: whether instead of the result's equation or beside it, the promise, and why it stands.
INSTEAD, BESIDE = "instead", "beside"
COLUMNS_GIVEN = "(columns u.%s v.%s place.%s low.%s high.%s duv.%s steps.%s class.%s)"
COLUMNS_LENT, COLUMNS_BEFORE = (COLUMNS_GIVEN.replace("%s", time) for time in ("now", "old"))
PROMISES = {
    "cct_c::ck_read_records": (BESIDE, f"FileOfRecords (read_outcome file.now (size_of {COLUMNS_BEFORE})) file.now", "as of records::read_records"),
    "cct_c::ck_write_records": (BESIDE, f"ReadsBack (write_outcome (size_of {COLUMNS_LENT}) (length file.old)) (list_of {COLUMNS_LENT})",
                                "as of records::write_records"),
    "cct_c::ck_salvage": (BESIDE, "KeptBack (salvage_outcome edges.now record_length bytes.now (length file.old) (length dropped.old)) edges.now "
                          "record_length bytes.now", "as of salvage::salvage"),
    "locus::Locus::stored": (INSTEAD, "(result.us ≡ table_u) × (result.vs ≡ table_v)", "both tables are given, each by an equation"),
    "records::read_records": (BESIDE, "FileOfRecords result file.now",
                              "what `written_read` says of a list of bytes, for the machine's: no hypothesis is left"),
    "records::write_records": (BESIDE, "ReadsBack result (list_of (held columns.entry))",
                               "what `read_written` says of a list of records, for the machine's numbers: no hypothesis is left"),
    "salvage::salvage": (BESIDE, "KeptBack result edges.now record_length bytes.now",
                         "what `kept_back` says of a list of bytes, for the machine's: no hypothesis is left"),
    "table::ReadyTable::new": (INSTEAD, "result.numbers ≡ ready_table", "the numbers are all that the table has"),
    "text::block": (INSTEAD, "Blocked scan input.now out.old out.new result",
                    "the record Blocked gives every field, and the whole buffer, by an equation each"),
    "text::finish": (INSTEAD, "Wrote 0 out.old out.new result (closes scan)",
                     "the record Wrote gives the end and the whole buffer by an equation each"),
}

# Functions that may not multiply or divide, nor may what they call, and why.
WITHOUT_MULTIPLY = {"arith::integer_root": "it also runs where numbers of 64 bits cannot be multiplied"}

# Functions that may not divide, nor may what they call, but for the methods left to others, and why.
WITHOUT_DIVISION = {
    "nearest::coarse_answer": ((".convert",), "a panel is not to divide for each point of the locus; how a reading is converted is its source's"),
    "nearest::coarse_with": ((".convert",), "as nearest::coarse_answer"),
    "reading::Converted::convert": ((), "every coarse reading goes through it once more, as a source that is converted already"),
    "reading::Micro::convert": ((), "a panel that has whole numbers need not divide at all"),
}

# Methods of the toolchain's library that compare, or call what they are handed, and do nothing else with numbers. Where a type of ours has
# a method of such a name, that is read too.
CALLS_ONLY = (".clamp", ".max", ".min", ".unwrap", ".unwrap_or_else")

EQUATION = re.compile(r"^result ≡ (?P<value>.+)$")
# What `x` lends by a reference, and what the columns hold that are lent as a value, or whose slices are lent to be written.
UNCHANGED = re.compile(r"(?P<of>|held |held_mut )(?P<name>«?\w+»?)\.exit(?P<now>(?:\.now)?) ≡ (?P=of)(?P=name)\.entry(?P=now)")
LENDS = "Columns"  # the type of a value that lends what it holds
SAME_SLICES = re.compile(r"SameSlices (?P<name>\w+)\.new (?P=name)\.old")  # what is lent to be written is what was lent before
SLICE = r"«?\w+»?\.(?:exit|entry)\.now"
COLUMNS = re.compile(r"columns(?: %s)+" % SLICE)  # a record of its arguments: two are equal only where all of these are
AT_END = re.compile(r"(?:held_mut )?«?\w+»?\.new|columns(?: «?\w+»?\.new)+")
ENDS = re.compile(r"\.(?:new|exit)\b")


def mentions(name, text):
    """Whether a name stands in a text by itself."""
    return re.search(r"(?<![\w'-])" + re.escape(name) + r"(?![\w'-])", text) is not None


def is_equation(promise):
    """Whether a promise gives the result as something that does not speak of the result."""
    match = EQUATION.match(promise)
    return match is not None and not mentions("result", match["value"])


def parts_of(promise):
    """What a promise says, in parts: several in brackets joined by `×`, or, of two `columns`, an equation for each argument."""
    parts = promise.split(" × ")
    if len(parts) > 1:
        return [part[1:-1] if part[0] + part[-1] == "()" else "" for part in parts]
    sides = promise.split(" ≡ ")
    if len(sides) == 2 and all(map(COLUMNS.fullmatch, sides)):
        left, right = (re.findall(SLICE, side) for side in sides)
        return ["%s ≡ %s" % pair for pair in zip(left, right)] if len(left) == len(right) else [""]
    return parts


def unchanged_by(promise):
    """The names that a promise says to be unchanged, where it says nothing else."""
    equations = list(map(UNCHANGED.fullmatch, parts_of(promise)))
    if not all(equations) or any(equation["of"] == "" and equation["now"] == "" for equation in equations):
        return set()
    return {equation["name"].strip("«»") for equation in equations}


def is_of_the_end(promise):
    """Whether a promise gives what is lent, as it is at the end, by something that does not speak of the end, or says that it is the same slices."""
    left, equals, right = promise.partition(" ≡ ")
    return SAME_SLICES.fullmatch(promise) is not None or AT_END.fullmatch(left) is not None and equals != "" and ENDS.search(right) is None


def parameter_faults(name, kind, promises, is_entry):
    """What the promises leave unsaid about one parameter."""
    spoken = " ".join(promises)
    if kind.startswith("&mut"):
        if not mentions(name + ".new", " ".join(promise for promise in promises if not SAME_SLICES.fullmatch(promise))):
            yield "exit " + name
    elif kind.startswith("&") or kind == LENDS:
        if not any(name in unchanged_by(promise) for promise in promises):
            yield "unchanged " + name
    elif is_entry and not mentions(name, spoken):
        yield "silent " + name


def contract_faults(function, is_entry):
    """The faults of one public function's contract."""
    if not function.ensures:
        yield "ensures"
        return
    if function.requires:
        yield "never requires" if is_entry else "requires"
    if not any(map(is_equation, function.ensures)):
        yield "equation"
    for promise in function.ensures:
        if not (is_equation(promise) or is_of_the_end(promise) or unchanged_by(promise)):
            yield "promise " + promise
    owner = function.name.partition("::")[0]
    for name, kind in function.parameters:
        yield from parameter_faults(name, owner if (name, kind) == ("self", "self") else kind, function.ensures, is_entry)


# The ghost member by which an impl of a trait says what it gives; what is given stands last where it is an equation.
GIVES = {"From": "from_gives", "TryFrom": "try_from_gives", "Source": "comes_to"}
GIVEN = re.compile(r"λ «?\w+»? (?P<given>«?\w+»?)\. (?P=given) ≡ (?P<value>.+)")
# The fields of a type whose impl lends slices, which are to be as they were.
LENT_FIELDS = {"Samples": ("samples", "x_bar", "y_bar", "z_bar")}


def impl_faults(impl):
    """The faults of one impl of a trait that converts."""
    gives = impl.ghosts.get(GIVES[impl.trait], "")
    equation = GIVEN.fullmatch(gives)
    if not gives or impl.trait != "Source" and (equation is None or mentions(equation["given"], equation["value"])):
        yield "its `%s` is no equation" % GIVES[impl.trait]
    for field in LENT_FIELDS.get(impl.type, ()):
        said = "self.exit.%s.now ≡ self.entry.%s.now" % (field, field)
        if not all(any(said in parts_of(promise) for promise in function.ensures) for function in impl.functions):
            yield "no promise says that `%s` is unchanged" % field


def faults_of_impls(found, traced):
    """Every fault of the impls of each crate, given by the crate's name."""
    for crate, listed in found.items():
        for impl in (impl for impl in listed if impl.trait in GIVES):
            for function in impl.functions:
                name = "%s::%s" % (crate, function.name)
                yield from ("%s: %s" % (name, fault) for fault in impl_faults(impl))
                if name not in traced:
                    yield "%s: docs/TRACE.md does not name it" % name


class Rules(NamedTuple):
    """What the functions are held against."""

    entry_crates: tuple
    requires: dict
    entry_requires: dict
    promises: dict
    traced: set


def is_excused(name, function, fault, rules):
    """Whether an exception allows a fault; one that has words does only where these stand."""
    word, _, what = fault.partition(" ")
    stands, said, _ = rules.promises.get(name, ("", "", ""))
    if word == "never":
        return name in rules.entry_requires and function.requires == rules.entry_requires[name][:1]
    if word == "promise":
        return what == said
    if word == "equation":
        return stands == INSTEAD and said in function.ensures
    return fault == "requires" and name in rules.requires


def faults_of(crates, rules):
    """Every fault, given the functions of each crate by the crate's name."""
    found, used = [], set()
    for crate, listed in crates.items():
        for function in (f for f in listed if f.public):
            name = "%s::%s" % (crate, function.name)
            for fault in contract_faults(function, crate in rules.entry_crates):
                word, _, what = fault.partition(" ")
                if is_excused(name, function, fault, rules):
                    used.add((name, word))
                else:
                    found.append("%s: %s" % (name, MEANING[word] % (what or word)))
            if name not in rules.traced:
                found.append("%s: docs/TRACE.md does not name it" % name)
    listed = {(name, "requires") for name in rules.requires} | {(name, "never") for name in rules.entry_requires}
    listed |= {(name, "equation") for name, (stands, *_) in rules.promises.items() if stands == INSTEAD}
    lost = [name for name in sorted(rules.promises) if (name, "promise") not in used]
    found += ["%s: the promise that tests/check_contracts.py has is not there" % name for name in lost]
    return found + ["%s: the exception '%s' is not needed" % exception for exception in sorted(listed - used)]


MEANING = {
    "ensures": "it has no %s, so it promises nothing",
    "requires": "it has a %s that is not among the exceptions in tests/check_contracts.py",
    "never": "it is an entry point and has a %s that is not, word for word, one in tests/check_contracts.py",
    "equation": "no promise is an %s `result ≡ ..` of its result, or the one that tests/check_contracts.py has instead",
    "promise": "a promise is no equation, and not the one that tests/check_contracts.py has: %s",
    "unchanged": "no promise says that the lent `%s` is unchanged",
    "exit": "no promise speaks of what `%s` holds at the end",
    "silent": "no promise speaks of the parameter `%s`",
}

# A path before a bracket, with the point where it is a method's, or one that is handed on; the words that may stand there, of which three
# make a value and the others stand in control flow.
CALL = re.compile(r"(?:(?<!\.)\. ?)?(?:\w+ ?:: ?)*\w+(?= ?\()|(?:\b\w+ ?:: ?)+[a-z_]\w*\b(?! ?(?:::|[(!]))")
NO_CALLS = ("Err", "Ok", "Some", "break", "if", "in", "match", "return", "while")
# A plain name that is not called where it stands, which may be a function's that is handed on.
NOT_CALLED = re.compile(r"(?<![.:\w])[a-z_]\w*\b(?! ?[(!:])")
# What could call a function without its name before a bracket: f::<>(..), (f)(..), [f][0](..), {f}(..) and f!(..).
NOT_PLAIN = r"::(?= ?<)|[)\]}](?= ?\()|(?<=\w)!(?= ?\()"
# A case of an enum, which calls nothing.
CASE = re.compile(r"[A-Z]\w*::[A-Z]\w*")


def calls(body):
    """What a body calls: a function of the crate by its name, a method with a point before it, any other by its path."""
    found = (call.replace(" ", "").removeprefix("crate::") for call in CALL.findall(body))
    return [call for call in found if call not in NO_CALLS]


def handed_on(body, crates, owner):
    """Where the functions are that a body in a crate may hand on by their plain names, in that crate or, where it has none, in any."""
    for name in NOT_CALLED.findall(body):
        places = [(crate, name) for crate in crates if any(function.name == name for function in crates[crate])]
        yield from [place for place in places if place[0] == owner] or places


class Ban(NamedTuple):
    """What a function may not do, nor what it calls."""

    words: str
    signs: re.Pattern
    within: bool  # whether all that it calls must be of its own crate


MULTIPLY = Ban("multiply or divide", re.compile(r"[*/%]|" + NOT_PLAIN), True)
DIVIDE = Ban("divide", re.compile(r"[/%]|" + NOT_PLAIN), False)


def places_of(crates, crate, call, ban):
    """Where the functions are that a call in a crate may come to, as crate and name: a method's may be of any type, and a type's of any crate."""
    if call.startswith(".") and not ban.within:
        return [(other, f.name) for other in crates for f in crates[other] if f.name.endswith("::" + call[1:])] or [(crate, call)]
    other, _, name = call.partition("::")
    if other in crates and not ban.within:
        return [(other, name)]
    owners = [owner for owner in (crates if name and not ban.within else ()) if any(f.name == call for f in crates[owner])]
    return [(owner, call) for owner in owners] or [(crate, call)]


def called_by(crates, owner, bodies, ban, left):
    """Where the functions are that the bodies of one in a crate may come to, but for those that are left to others."""
    for body in bodies:
        for call in (call for call in calls(body) if call not in left):
            places = places_of(crates, owner, call, ban)
            yield from () if not ban.within and call in CALLS_ONLY and places == [(owner, call)] else places
        yield from handed_on(body, {owner: crates.get(owner, ())} if ban.within else crates, owner)


def operation_faults(crates, crate, start, ban, left=()):
    """Where a function, or what it calls but for what is left to others, does what it may not, or calls what is not there, given the
    functions of the crates."""
    places = [(crate, start)]
    for owner, name in places:  # they become more as calls are found
        bodies = [function.body for function in crates.get(owner, ()) if function.name == name]
        if not bodies and (ban.within or not CASE.fullmatch(name)):
            yield "it comes to `%s`, which is no function of %s" % (name, "its crate" if ban.within else "ours")
        for sign in sorted(set(ban.signs.findall(" ".join(bodies)))):
            yield "it may not %s, or call otherwise than by a name, and `%s` has a `%s`" % (ban.words, name, sign)
        places += dict.fromkeys(place for place in called_by(crates, owner, bodies, ban, left) if place not in places)


def banned_faults(crates, names, ban, left={}):
    """Every fault of the functions that may not do what is banned, given the calls that each leaves to others."""
    for name in names:
        crate, _, function = name.partition("::")
        yield from ("%s: %s" % (name, fault) for fault in operation_faults(crates, crate, function, ban, left.get(name, ())))


# --- Self-test --------------------------------------------------------------------------------------------------------

GOOD = """
// Adds.
pub fn add(
    x: u32,
    edges: &[u32],
    out: &mut [u8; 4],
) -> [u32; 2]
    ensures answers { result ≡ sum x edges.now }
    ensures unchanged { edges.exit.now ≡ edges.entry.now }
    ensures { out.new ≡ bytes result }
{
    if x == 0 { one() } else { two() }
}

pub fn point(us: &[u32; 24], vs: &[u32; 24]) -> u32
    ensures answers { result ≡ locus }
    ensures unchanged { (us.exit.now ≡ us.entry.now) × (vs.exit.now ≡ vs.entry.now) }
{
    us[0]
}

pub fn store(xs: &[u32], ys: &[i16], rows: &mut [u32], file: &mut [u8]) -> u32
    ensures answers { result ≡ size_of (columns xs.now ys.now) }
    ensures unchanged { columns xs.exit.now ys.exit.now ≡ columns xs.entry.now ys.entry.now }
    ensures target { columns rows.new file.new ≡ filled result rows.old file.old }
{
    0
}

impl Board {
    pub fn size(self) -> u32
        ensures { result ≡ size_of self }
    {
        64
    }
}

pub trait Source {
    ghost comes_to: { Self → ℕ };

    fn convert(self) -> u32
        ensures { result ≡ comes_to self };
}

impl Source for Board {
    ghost comes_to = { λ b. 64 };

    fn convert(self) -> u32 {
        64
    }
}

impl Columns<'_> {
    pub fn len(self) -> usize
        ensures length { result ≡ size_of (held self.entry) }
        ensures same { held self.exit ≡ held self.entry }
    {
        8
    }
}

pub fn fill<S: Source>(source: S, from: Columns, to: &mut ColumnsMut) -> usize
    ensures answers { result ≡ filled (S.comes_to source) (held from.entry) }
    ensures { held from.exit ≡ held from.entry }
    ensures target { held_mut to.new ≡ filled_into result (held_mut to.old) }
    ensures { SameSlices to.new to.old }
{
    from.len()
}

pub(crate) fn inner(x: u32) -> u32 {
    x
}
"""
TRACED = {"good::add", "good::point", "good::store", "good::Board::size", "good::Source::convert", "good::Columns::len", "good::fill"}

# What is changed in the text above, and the words of a fault that must be found then.
FAULTS = (
    ("    ensures { result ≡ size_of self }\n", "    requires { 0 < 1 }\n", "it has no ensures"),
    ("        ensures { result ≡ size_of self }\n    {", "    {", "it has no ensures"),
    ("        ensures { result ≡ size_of self }", "        // ensures { result ≡ size_of self }", "it has no ensures"),
    ("        ensures { result ≡ size_of self }", "        /* ensures { result ≡ size_of self } */", "it has no ensures"),
    ("result ≡ sum x edges.now", "sum x edges.now ≤ 5", "no promise is an equation"),
    ("result ≡ size_of self", "result ≡ cond (nat_le result self) result self", "no promise is an equation"),
    ("edges.exit.now ≡ edges.entry.now", "edges.entry.now ≡ edges.entry.now", "the lent `edges` is unchanged"),
    ("edges.exit.now ≡ edges.entry.now", "edges.now ≡ edges.now", "the lent `edges` is unchanged"),
    ("edges.exit.now ≡ edges", "x ≡ 0 → edges.exit.now ≡ edges", "the lent `edges` is unchanged"),
    ("(us.exit.now ≡ us.entry.now)", "(0 ≡ 0)", "the lent `us` is unchanged"),
    ("(us.exit.now ≡ us", "result ≡ 0 → (us.exit.now ≡ us", "the lent `vs` is unchanged"),
    ("(vs.exit.now ≡ vs.entry.now)", "(vs.exit.now ≡ us.entry.now)", "the lent `vs` is unchanged"),
    ("out.new ≡ bytes result", "out.old ≡ bytes result", "what `out` holds"),
    ("out.new ≡ bytes result", "out.new ≡ out.new", "a promise is no equation"),
    ("out.new ≡ bytes result", "x ≡ 0 → out.new ≡ bytes result", "a promise is no equation"),
    ("columns xs.exit.now ys.exit.now ≡", "columns ys.exit.now xs.exit.now ≡", "the lent `xs` is unchanged"),
    ("≡ columns xs.entry.now ys.entry.now", "≡ columns xs.entry.now", "the lent `ys` is unchanged"),
    ("columns xs.exit.now ys.exit.now ≡ columns", "sum xs.exit.now ys.exit.now ≡ sum", "`ys` is unchanged"),
    ("≡ filled result rows.old", "≡ filled result rows.new", "a promise is no equation"),
    ("        ensures { result ≡ comes_to self };", "        ;", "it has no ensures"),
    ("held self.exit ≡ held self.entry", "held self.entry ≡ held self.entry", "the lent `self` is unchanged"),
    ("held self.exit ≡ held self.entry", "self.exit ≡ self.entry", "the lent `self` is unchanged"),
    ("held from.exit ≡ held from.entry", "held from.exit ≡ held_mut from.entry", "the lent `from` is unchanged"),
    ("held_mut to.new ≡ filled_into", "held_mut to.old ≡ filled_into", "what `to` holds"),
    ("SameSlices to.new to.old", "SameSlices to.new from.old", "a promise is no equation"),
    ("result ≡ size_of self }", "result ≡ size_of self } ensures { Sized 0 self result }", "is no equation"),
    ("pub fn add(", "pub fn plus(", "docs/TRACE.md does not name it"),
    ("pub(crate) fn inner", "pub fn inner", "it has no ensures"),
)
# The same, of faults of an entry crate only.
ENTRY_FAULTS = (
    (") -> [u32; 2]\n", ") -> [u32; 2]\n    requires { x < 5 }\n", "it is an entry point"),
    ("sum x edges", "sum 0 edges", "the parameter `x`"),
)

# A function that only shifts, adds, subtracts and compares, with what it calls, and one that it does not call.
PLAIN = """
// Not n * n / 2 % 3.
pub fn root(n: u64) -> u32
    ensures { result * result ≡ nearest n }
{
    let mut left = n; /* 2 * n */
    let mut found = 0u64;
    for bit in 0..rounds(n) {
        if (left >> bit) + 1 > found {
            left = crate::less(left, found);
        }
    }
    found as u32
}

fn rounds(n: u64) -> u32 {
    if n < 4294967296 { 16 } else { 32 }
}

fn less(left: u64, growth: u64) -> u64
    requires { growth * 1 ≤ left }
{
    left - growth
}

fn squared(n: u64) -> u64 {
    n * n
}
"""

# What is changed in it, and the words of a fault that must be found then.
OPERATION_FAULTS = (
    ("left - growth", "left * growth", "`less` has a `*`"),
    ("left - growth", "left / growth", "`less` has a `/`"),
    ("left - growth", "left % growth", "`less` has a `%`"),
    ("= 0u64;", "= 0u64; found *= n;", "`root` has a `*`"),
    ("= 0u64;", "= 0u64; found /= n;", "`root` has a `/`"),
    ("= 0u64;", "= 0u64; found %= n;", "`root` has a `%`"),
    ("crate::less(left, found)", "squared(left)", "`squared` has a `*`"),
    ("left - growth", "left - squared (growth)", "`squared` has a `*`"),
    ("crate::less(left, found)", "(less)(left, found)", "`root` has a `)`"),
    ("crate::less(left, found)", "less::<>(left, found)", "`root` has a `::`"),
    ("crate::less(left, found)", "[less][0](left, found)", "`root` has a `]`"),
    ("{ 16 }", "{ if n == b'}' { 1 } else { n / 2 } }", "`rounds` has a `/`"),
    ("= 0u64;", "= 0u64; let text = b\"//\"; found *= n;", "`root` has a `*`"),
    ("0..rounds(n)", "0..u64::leading_zeros(n)", "comes to `u64::leading_zeros`"),
    ("rounds(n) {", "count_ones(n) {", "comes to `count_ones`"),
    ("crate::less(left, found)", "left.min(found)", "comes to `.min`"),
    ("crate::less(left, found)", "std::num::wrapping_sub_u64(left, found)", "comes to `std::num::wrapping_sub_u64`"),
    ("crate::less(left, found)", "other::less(left, found)", "comes to `other::less`"),
    ("pub fn root(", "pub fn roots(", "comes to `root`"),
)


# A function that multiplies but does not divide, what it calls in another crate, and a method there.
UNDIVIDED = """
pub fn read(u: u32, v: u32) -> Coarse {
    match other::admit(u * 2, v) {
        Admission::Near(m, d) => accepted(Admission::Near(m, d)),
        Admission::Refused(refusal) => refusal.number(),
    }
    .or(source.convert()).map(Coarse::made).unwrap_or_else(refused).max(u)
}

fn refused(refusal: Refusal) -> Coarse {
    7
}

fn half(refusal: Refusal) -> Coarse {
    7 / 2
}

impl Coarse {
    fn made(n: u32) -> Coarse {
        u8::from(n + 3)
    }
}

impl Source for Reading {
    fn convert(self) -> Coarse {
        self / 2
    }
}

fn accepted(admission: Admission) -> Coarse {
    4
}
"""
OTHER = """
pub fn admit(u: u32, v: u32) -> Admission {
    squared(u) * squared(v)
}

fn squared(u: u32) -> u64 {
    u * u
}

pub fn third(refusal: Refusal) -> Coarse {
    7 / 3
}

impl Refusal {
    pub fn number(self) -> u8 {
        5
    }
}

impl From<Refusal> for u8 {
    fn from(refusal: Refusal) -> u8 {
        6
    }
}
"""
LEFT = {"good::read": (".convert", ".map", ".or")}
DIVISION_FAULTS = (
    ("source.convert()", "source.converted()", "comes to `.converted`"),
    ("(n + 3)", "(n / 3)", "`Coarse::made` has a `/`"),
    ("        6\n", "        12 / 2\n", "`u8::from` has a `/`"),
    ("Coarse::made)", "Coarse::unmade)", "comes to `Coarse::unmade`"),
    ("    7\n", "    14 / 2\n", "`refused` has a `/`"),
    ("unwrap_or_else(refused)", "unwrap_or_else({ let f = half; f })", "`half` has a `/`"),
    ("unwrap_or_else(refused)", "unwrap_or_else(&half)", "`half` has a `/`"),
    ("unwrap_or_else(refused)", "unwrap_or_else(if u == v { refused } else { half })", "`half` has a `/`"),
    ("unwrap_or_else(refused)", "unwrap_or_else(third)", "`third` has a `/`"),
    ("fn made(n: u32)", "fn max(self, n: u32) -> u32 {\n        n / 2\n    }\n\n    fn made(n: u32)", "`Coarse::max` has a `/`"),
    (".max(u)", ".most(u)", "comes to `.most`"),
    ("u * 2", "u / 2", "`read` has a `/`"),
    ("    4\n", "    8 % 5\n", "`accepted` has a `%`"),
    ("u * u", "u / u", "`squared` has a `/`"),
    ("        5\n", "        10 / 2\n", "`Refusal::number` has a `/`"),
    ("squared(u) *", "std::num::quotient(u) *", "comes to `std::num::quotient`"),
    ("squared(u) *", "std::num::Quotient(u) *", "comes to `std::num::Quotient`"),
    ("squared(u) *", "Half(u) *", "comes to `Half`"),
    ("other::admit(", "other::admitted(", "comes to `admitted`"),
    ("accepted(Admission::Near(m, d))", "halved(Admission::Near(m, d))", "comes to `halved`"),
    ("refusal.number()", "refusal.half()", "comes to `.half`"),
)


def require_found(text, faults_in, changes):
    """No fault is found in a text, and exactly one of the right words where each change is made."""
    assert faults_in(text) == [], faults_in(text)
    for old, new, words in changes:
        assert text.count(old) == 1, old
        found = faults_in(text.replace(old, new))
        assert len(found) == 1 and words in found[0], (words, found)


def self_test_of_operations():
    """Each multiply, division and call of what is not there is found where it is put in, and none where it is not."""
    require_found(PLAIN, lambda text: list(banned_faults({"good": functions(text)}, ["good::root"], MULTIPLY)), OPERATION_FAULTS)
    crates = lambda text: dict(zip(("good", "other"), map(functions, text.split("---"))))
    require_found(UNDIVIDED + "---" + OTHER, lambda text: list(banned_faults(crates(text), ["good::read"], DIVIDE, LEFT)), DIVISION_FAULTS)


# Impls of traits that convert, and what is changed in them.
CONVERTS = """
impl From<Refusal> for u8 {
    ghost from_gives = { λ r n. n ≡ number_of r };

    fn from(refusal: Refusal) -> u8 {
        1
    }
}

impl TryFrom<u8> for Party {
    ghost use Rattle.board.specs.Boards.{party_numbered};

    ghost try_from_gives = { λ number party. party ≡ party_numbered number };

    fn try_from(number: u8) -> Result<Party, Denied> {
        Ok(Party::Ours)
    }
}

impl<'a> Source for Samples<'a> {
    ghost comes_to = { λ s. convert_samples s.samples.now };

    fn convert(self) -> Converted
        ensures converts { result ≡ convert_samples self.entry.samples.now }
        ensures unchanged { (self.exit.samples.now ≡ self.entry.samples.now) × (self.exit.x_bar.now ≡ self.entry.x_bar.now) × (self.exit.y_bar.now ≡ self.entry.y_bar.now) × (self.exit.z_bar.now ≡ self.entry.z_bar.now) }
    {
        Ok(0)
    }
}
"""
CONVERTS_TRACED = {"good::u8::from", "good::Party::try_from", "good::Samples::convert"}
CONVERTS_FAULTS = (
    ("n ≡ number_of r", "n ≤ 255", "its `from_gives` is no equation"),
    ("n ≡ number_of r", "n ≡ n", "its `from_gives` is no equation"),
    ("party ≡ party_numbered number", "number ≡ 0 → party ≡ party_numbered number", "its `try_from_gives` is no equation"),
    ("    ghost comes_to = { λ s. convert_samples s.samples.now };", "", "its `comes_to` is no equation"),
    ("(self.exit.y_bar.now ≡ self.entry.y_bar.now)", "(self.exit.y_bar.now ≡ self.entry.z_bar.now)", "`y_bar` is unchanged"),
    ("for u8", "for u16", "docs/TRACE.md does not name it"),
)


def check(text, entry=(), requires={}, promises={}, entry_requires={}):
    return faults_of({"good": functions(text)}, Rules(entry, requires, entry_requires, promises, TRACED))


def self_test():
    """Each fault is found where it is put in, none where it is not, and an exception holds only where it is needed."""
    self_test_of_operations()
    require_found(CONVERTS, lambda text: list(faults_of_impls({"good": impls(text)}, CONVERTS_TRACED)), CONVERTS_FAULTS)
    for entry in ((), ("good",)):
        assert check(GOOD, entry) == [], check(GOOD, entry)
        for old, new, words in FAULTS + (ENTRY_FAULTS if entry else ()):
            assert GOOD.count(old) == 1, old
            found = check(GOOD.replace(old, new), entry)
            assert any(words in fault for fault in found), (words, found)
    bounded = GOOD.replace(") -> [u32; 2]\n", ") -> [u32; 2]\n    requires { x < 5 }\n")
    small = {"good::add": "x is small"}
    assert "not among the exceptions" in " ".join(check(bounded))
    assert check(bounded, (), small) == [], check(bounded, (), small)
    assert check(GOOD, (), small) == ["good::add: the exception 'requires' is not needed"], check(GOOD, (), small)
    assert len(check(bounded, ("good",), small)) == 2
    for said, count in (("x < 5", 0), ("x < 6", 2)):
        assert len(check(bounded, ("good",), entry_requires={"good::add": (said, "x is small")})) == count
    assert len(check(GOOD, ("good",), entry_requires={"good::add": ("x < 5", "x is small")})) == 1
    whole, weak = (GOOD.replace("result ≡ size_of self", said) for said in ("Sized 0 self result", "Sized 1 self result"))
    both = GOOD.replace("result ≡ size_of self }", "result ≡ size_of self } ensures { Sized 0 self result }")
    no_equation, other, lost, unneeded = "no promise is an equation", "a promise is no equation", "is not there", "is not needed"
    for stands, expected in ((INSTEAD, ([], [no_equation, other, lost, unneeded], [unneeded], [lost, unneeded])),
                             (BESIDE, ([no_equation], [no_equation, other, lost], [], [lost]))):
        for text, words in zip((whole, weak, both, GOOD), expected):
            found = check(text, promises={"good::Board::size": (stands, "Sized 0 self result", "the record Sized gives it")})
            assert len(found) == len(words) and all(word in fault for word, fault in zip(words, found)), (stands, words, found)
    try:
        functions(GOOD.replace("pub fn add", "pub unsafe fn add"))
    except ValueError:
        print("check_contracts: the self-test found all %d faults" % (len(FAULTS + ENTRY_FAULTS + OPERATION_FAULTS + DIVISION_FAULTS + CONVERTS_FAULTS) + 12))
    else:
        sys.exit("check_contracts: a function that is not read goes unnoticed")


def main():
    if sys.argv[1:] == ["--self-test"]:
        return self_test()
    if sys.argv[1:]:
        sys.exit(__doc__)
    crates = {crate: functions_of(crate) for crate in library_crates()}
    traced = named_functions(TRACE.read_text(encoding="utf-8"))
    found = faults_of(crates, Rules(ENTRY_CRATES, REQUIRES, ENTRY_REQUIRES, PROMISES, traced))
    converting = {crate: [impl for impl in impls_of(crate) if impl.trait in GIVES] for crate in crates}
    found += faults_of_impls(converting, traced)
    left = {name: others for name, (others, _) in WITHOUT_DIVISION.items()}
    found += [*banned_faults(crates, WITHOUT_MULTIPLY, MULTIPLY), *banned_faults(crates, WITHOUT_DIVISION, DIVIDE, left)]
    for line in found:
        print("check_contracts: " + line, file=sys.stderr)
    if found:
        sys.exit("check_contracts: %d faults" % len(found))
    public = sum(function.public for listed in crates.values() for function in listed)
    public += sum(len(impl.functions) for listed in converting.values() for impl in listed)
    counts = public, len(crates), len(REQUIRES) + len(ENTRY_REQUIRES) + len(PROMISES), len(WITHOUT_MULTIPLY), len(WITHOUT_DIVISION)
    print("check_contracts: %d public functions and conversions of %d crates, %d exceptions; %d may not multiply, %d may not divide" % counts)


if __name__ == "__main__":
    main()
