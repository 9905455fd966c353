"""`tools/audit` over small crates, whose listings were written by hand; and whether each definition of the crates, each type and each public
contract names only what is defined. What is looked at is read once."""
import functools
import pathlib
import shutil
import tempfile
from unittest import mock

from auditing.index import Index
from auditing.listing import groups, types, unresolved

from .runs import Reading, Run

TOP = pathlib.Path(__file__).resolve().parent.parent.parent
FILES = {
    "low/src/lib.rt": """\
//! The lower crate.
pub mod bag;
pub mod kept;

pub use kept::Kept;
""",
    "low/src/kept.rt": """\
//! What is kept.
use std::marker::Model;

/// Octets.
#[derive(Drop)]
pub struct Kept {
    octets: Vec<u8>,
}

impl Model for Kept {
    ghost use Rattle.std.specs.Prelude.{ℕ, List};
    ghost use Rattle.low.specs.Size.{items_of};

    ghost Value = { List ℕ };

    ghost view = { λ k. items_of k.octets };

    ghost invariant = { λ k. k.octets ≡ nothing_of_this_name };
}

impl Ord for Kept {
    ghost use Rattle.low.specs.Size.{twice};

    ghost cmp = { twice };

    fn cmp(&self, other: &Self) -> u64 {
        0
    }
}
""",
    "low/src/bag.rt": """\
//! Bags in bags.
ghost use Rattle.std.specs.Prelude.{◌≡◌, ℕ};
ghost use Rattle.low.specs.Size.{IsLight};

use crate::Kept;

/// A bag.
pub enum Bag {
    /// With nothing in it.
    Empty,
    Full { kept: Kept, size: u64 },
    Inner(Box<Held>),
}

/// A bag in a bag.
pub struct Held {
    pub bag: Bag,
    ghost light: { IsLight bag },
}

/// What has a size.
pub trait Sized {
    ghost size: { Self → ℕ };

    /// Tells it.
    fn told(&self) -> u64
        ensures { result ≡ size self.now }
    {
        0
    }
}
""",
    "low/specs/Lib.antt": "pub mod Again\npub mod Size\n",
    "low/specs/Again.antt": "pub use Rattle.low.specs.Size.{least as first}\n",
    "low/specs/Size.antt": """\
-- Sizes.
use Rattle.std.specs.Prelude.{◌≡◌, ℕ, zero, suc, ◌+◌, List, length, Bool, true, false}
use Rattle.low.specs.declared.bag.Bag.{Bag}
use Rattle.low.specs.declared.bag.Bag.TheVariants as bag

-- the least size: `size` isn't used
abbrev pub least : ℕ
least = 1 -- and neither is twice

abbrev pub twice : ℕ → ℕ
twice least = least + least

-- the size of a bag
unfoldable pub size : Bag → ℕ
size bag.Empty = least

-- of its octets
size (bag.Full kept size) = length kept + twice size
size (bag.Inner held) = (λ least. least) zero

abbrev pub IsLight : Bag → Type 0
IsLight b = size b ≡ least

abbrev pub items_of : List ℕ → List ℕ
items_of items = items

unfoldable mutual
  -- whether it is even
  pub is_even : ℕ → Bool
  is_even zero = true
  is_even (suc n) = is_odd n

  pub is_odd : ℕ → Bool
  is_odd zero = false
  is_odd (suc n) = is_even n
""",
    "high/src/lib.rt": """\
//! The higher crate.
ghost use Rattle.std.specs.Prelude.{◌≡◌, IsTrue};
ghost use Rattle.low.specs.Size as sizes;
ghost use Rattle.high.specs.Use.{least, ◌⊞◌};

use low::Kept;

/// The most.
pub const MOST: u64 = 3;

pub struct Counter<'a> {
    pub kept: &'a Kept,
}

impl<'a> Counter<'a> {
    /// Counts.
    #[inline]
    pub fn count<T: low::bag::Sized>(&self, at: &T) -> u64
        requires even { IsTrue (sizes.is_even least) }
        ensures exact { result ≡ MOST ⊞ T.size at.now }
        ensures wrong { result ≡ hidden }
    {
        0
    }
}

/// Says nothing.
pub fn kept_are_ordered()
    ensures { (a b : Kept) → ⟦<Kept as Ord>⟧.cmp a ≡ ⟦<Kept as Ord>⟧.cmp a }
{}
""",
    "high/specs/Lib.antt": "pub mod More\npub mod Use\npub mod Wrong\n",
    "high/specs/More.antt": """\
use Rattle.std.specs.Prelude.{ℕ, ◌+◌, List}
use Rattle.high.specs.declared.TheConstants.{MOST}
use Rattle.low.specs.Size

-- a row
pub record Row (least : Type 0) : Type 0 where
  pub first : least
  -- and what comes after it
  pub rest : List least

pub data Choice : Type 0 where
  one : Row ℕ → Choice
  two : (most : ℕ) → Choice

-- by a number
module _ (n : ℕ) where
  -- what they are together
  abbrev pub sum : Choice → ℕ
  sum (one row) = row.first + n
  sum (two MOST) = MOST
  sum (two most) =
      let twice = most in Size.twice MOST + twice
""",
    "high/specs/Use.antt": """\
use Rattle.std.specs.Prelude.{ℕ, ◌+◌}
use Rattle.low.specs.Again.{first}

abbrev pub least : ℕ
least = first

abbrev pub ◌⊞◌ : ℕ → ℕ → ℕ
◌⊞◌ a b = a + b
""",
    "high/specs/Wrong.antt": """\
use Rattle.std.specs.Prelude.{ℕ}
use Rattle.high.specs.Use.{least, lost}

abbrev pub wrong : ℕ → ℕ
wrong a =
    let b : ℕ = least in record { kept = b; unkept = elim a [ missing ↦ missing | d ↦ missing ] }

abbrev pub other : ℕ
other = lost
""",
}
LEAST = """\
crates/low/specs/Size.antt:7
-- the least size: `size` isn't used
abbrev pub least : ℕ
least = 1 -- and neither is twice

"""
TWICE = """\
crates/low/specs/Size.antt:10
abbrev pub twice : ℕ → ℕ
twice least = least + least

"""
ITEMS = """\
crates/low/specs/Size.antt:24
abbrev pub items_of : List ℕ → List ℕ
items_of items = items

"""
EVEN = """\
crates/low/specs/Size.antt:27
unfoldable mutual
  -- whether it is even
  pub is_even : ℕ → Bool
  is_even zero = true
  is_even (suc n) = is_odd n

  pub is_odd : ℕ → Bool
  is_odd zero = false
  is_odd (suc n) = is_even n

"""
KEPT = """\
crates/low/src/kept.rt:6
/// Octets.
pub struct Kept {
    octets: Vec<u8>,
}

crates/low/src/kept.rt:10
impl Model for Kept {
    ghost Value = { List ℕ };
    ghost view = { λ k. items_of k.octets };
}

"""
BAG = """\
These name one another: size, IsLight, Bag, Held.

crates/low/specs/Size.antt:14
-- the size of a bag
unfoldable pub size : Bag → ℕ
size bag.Empty = least

-- of its octets
size (bag.Full kept size) = length kept + twice size
size (bag.Inner held) = (λ least. least) zero

crates/low/specs/Size.antt:21
abbrev pub IsLight : Bag → Type 0
IsLight b = size b ≡ least

crates/low/src/bag.rt:8
/// A bag.
pub enum Bag {
    /// With nothing in it.
    Empty,
    Full { kept: Kept, size: u64 },
    Inner(Box<Held>),
}

crates/low/src/bag.rt:16
/// A bag in a bag.
pub struct Held {
    pub bag: Bag,
    ghost light: { IsLight bag },
}

"""
HIGHER_LEAST = """\
crates/high/specs/Use.antt:4
abbrev pub least : ℕ
least = first

"""
SUM = """\
crates/high/specs/Use.antt:7
abbrev pub ◌⊞◌ : ℕ → ℕ → ℕ
◌⊞◌ a b = a + b

"""
SIZED = """\
crates/low/src/bag.rt:22
/// What has a size.
pub trait Sized {
    ghost size: { Self → ℕ };
    /// Tells it.
    fn told(&self) -> u64
        ensures { result ≡ size self.now }
}

"""
COUNTER = """\
crates/high/src/lib.rt:11
pub struct Counter<'a> {
    pub kept: &'a Kept,
}

"""
MOST = """\
crates/high/src/lib.rt:9
/// The most.
pub const MOST: u64 = 3;

"""
ORDERED = """\
crates/low/src/kept.rt:21
impl Ord for Kept {
    ghost cmp = { twice };
}

crates/high/src/lib.rt:28
/// Says nothing.
pub fn kept_are_ordered()
    ensures { (a b : Kept) → ⟦<Kept as Ord>⟧.cmp a ≡ ⟦<Kept as Ord>⟧.cmp a }

"""
CHOSEN = """\
crates/high/specs/More.antt:6
-- a row
pub record Row (least : Type 0) : Type 0 where
  pub first : least
  -- and what comes after it
  pub rest : List least

crates/high/specs/More.antt:11
pub data Choice : Type 0 where
  one : Row ℕ → Choice
  two : (most : ℕ) → Choice

"""
SUMMED = """\
crates/high/specs/More.antt:18
module _ (n : ℕ) where
  -- what they are together
  abbrev pub sum : Choice → ℕ
  sum (one row) = row.first + n
  sum (two MOST) = MOST
  sum (two most) =
      let twice = most in Size.twice MOST + twice

"""
COUNT = """\
crates/high/src/lib.rt:18
impl<'a> Counter<'a>
    /// Counts.
    pub fn count<T: low::bag::Sized>(&self, at: &T) -> u64
        requires even { IsTrue (sizes.is_even least) }
        ensures exact { result ≡ MOST ⊞ T.size at.now }
"""
WRONG = """\
crates/high/specs/Wrong.antt:4
abbrev pub wrong : ℕ → ℕ
wrong a =
    let b : ℕ = least in record { kept = b; unkept = elim a [ missing ↦ missing | d ↦ missing ] }

"""
NOTHING = """\
crates/high/specs/Wrong.antt:6: nothing is known as missing
crates/high/specs/Wrong.antt:6: nothing is known as .unkept
"""
UNREAD = "crates/high/specs/Odd.antt:1: can't be read: an odd line"
COUNTED = """\
high                     1 definitions      2 lines
low                      3 definitions      9 lines
all                      4 definitions     11 lines
"""
SEVERAL = """\
least: several have this name; ask for one by a longer path:
  Rattle.high.specs.Use.least  crates/high/specs/Use.antt:4
  Rattle.low.specs.Size.least  crates/low/specs/Size.antt:7
"""
# What is said of names that aren't known: those that differ in a letter or two, and have as many parts.
NEAR = {
    "Size.lost": "; names near it: Size.least",
    "laest": "; names near it: least",
    "low/twise": "; names near it: low/twice",
    "high/twise": "",
    "Countr::count": "; names near it: Counter::count",
    "Counter::cuont.exact": "; names near it: Counter::count.exact",
    "low::kept::Kep": "; names near it: low::kept::Kept",
    "nothing_like_it": "",
}
CLAUSES = "Counter::count.none: no definition, type or contract has this name; clauses of Counter::count: exact, wrong\n"


def made(room):
    """The crates in a folder, with the tool."""
    for name, text in FILES.items():
        path = room / "crates" / name
        path.parent.mkdir(parents=True, exist_ok=True)
        path.write_text(text, encoding="utf-8")
    (room / "tools").mkdir()
    for tool in ("audit", "command.py"):
        shutil.copy(TOP / "tools" / tool, room / "tools" / tool)
    shutil.copytree(TOP / "tools/auditing", room / "tools/auditing", ignore=shutil.ignore_patterns("__pycache__"))


def toolchain(names):
    """The last line of a listing: what it uses of the toolchain, names of the code and of definitions."""
    code = {"Box", "Ord", "Vec", "u64", "u8"}
    return f"toolchain: {', '.join(it if it in code else f'{it} (Rattle.std.specs.Prelude)' for it in names.split())}\n"


def of_listings(room):
    """Listings, and names of nothing or of several things."""
    made(room)

    def run(names, output="", error="", status=0):
        return Run(f"audit {names}", room, f"tools/audit {names}", output.encode(), error.encode(), status)

    yield run("twice", TWICE + toolchain("ℕ ◌+◌"))
    yield run("twice Size.least low/twice", TWICE + LEAST + toolchain("ℕ ◌+◌"))
    yield run("is_odd", EVEN + toolchain("Bool false suc true zero ℕ"))
    yield run("low/Kept", ITEMS + KEPT + toolchain("List Vec u8 ℕ"))
    yield run("IsLight", ITEMS + KEPT + LEAST + TWICE + BAG + toolchain("Box List Vec length u64 u8 zero ℕ ◌+◌ ◌≡◌"))
    contract = SIZED + ITEMS + KEPT + COUNTER + EVEN + LEAST + HIGHER_LEAST + MOST + SUM + COUNT
    names = toolchain("Bool IsTrue List Vec false suc true u64 u8 zero ℕ ◌+◌ ◌≡◌")
    yield run("Counter::count.exact", f"{contract}\n{names}")
    whole = f"{contract}        ensures wrong {{ result ≡ hidden }}\n\n{names}"
    yield run("high::Counter::count", whole, "crates/high/src/lib.rt:21: nothing is known as hidden\n", 1)
    yield run("kept_are_ordered", ITEMS + KEPT + TWICE + ORDERED + toolchain("List Ord Vec u8 ℕ ◌+◌ ◌≡◌"))
    yield run("sum", CHOSEN + TWICE + MOST + SUMMED + toolchain("List u64 ℕ ◌+◌"))
    yield run("wrong", LEAST + HIGHER_LEAST + WRONG + toolchain("ℕ"), NOTHING, 1)
    yield run("--count high/least is_even", COUNTED)
    yield run("least", "", SEVERAL, 2)
    for name, near in NEAR.items():
        yield run(name, "", f"{name}: no definition, type or contract has this name{near}\n", 2)
    yield run("Counter::count.none", "", CLAUSES, 2)


@functools.cache
def crates():
    """What stands in the crates."""
    return Index(TOP)


class Resolved(Reading):
    """Whether all words of some units stand for something."""

    def __init__(self, title, units):
        self.title, self.command, self.units = title, "tools/audit", units

    def found(self, path):
        """The words that don't, and the lines that couldn't be read."""
        units = self.units(crates())
        self.looked = len(units)
        read = [*crates().specs.values(), *crates().sources.values()]
        unread = [f"{file}:{line}: can't be read: {text}" for it in read for file, line, text in it.wrong]
        return unread + unresolved([unit for group in groups(units) for unit in group])


def definitions(index):
    """The definitions of all crates."""
    return [unit for it in index.specs.values() for unit in it.units]


def contracts(index):
    """The contracts of public functions."""
    return [it.contract(function) for it in index.sources.values() for function in it.functions if function.is_public and function.clauses]


class Unresolved(Reading):
    """Whether it is noticed where words stand for nothing, and where a line can't be read."""

    title, command = "words that stand for nothing", "tools/audit"

    def found(self, path):
        """Where something else is told."""
        wanted = {
            definitions: [UNREAD, *NOTHING.splitlines(), "crates/high/specs/Wrong.antt:9: nothing is known as lost"],
            contracts: [UNREAD, "crates/high/src/lib.rt:21: nothing is known as hidden"],
        }
        self.looked = len(wanted)
        with tempfile.TemporaryDirectory() as room:
            made(pathlib.Path(room))
            (pathlib.Path(room) / "crates/high/specs/Odd.antt").write_text("an odd line\n", encoding="utf-8")
            with mock.patch(f"{__name__}.crates", functools.cache(lambda: Index(pathlib.Path(room)))):
                got = {units: Resolved("", units).found(path) for units in wanted}
        return [f"{units.__name__}: wanted {wanted[units]}, got {got[units]}" for units in wanted if got[units] != wanted[units]]


def of_crates():
    """The definitions, the types and the contracts, and whether words that stand for nothing are noticed."""
    yield Resolved("what definitions name", definitions)
    yield Resolved("what types, traits and constants name", types)
    yield Resolved("what contracts of public functions name", contracts)
    yield Unresolved()
