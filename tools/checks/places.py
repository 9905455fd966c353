"""Each place where the libraries and the program say themselves that memory is out, each where they ask for room by a number, and each call of
what answers that memory is out where a number is too large.

A place of the first kind answers it of something else than what answered it first, so nothing but its reason says that memory was refused
there. One of the second kind may ask for more than there is, and one of the third may be handed a number that nothing has. The tables
`no_memory.tsv`, `room.tsv` and `by_number.tsv` have a row for each, in cells with tabs between them: the crate; the function, after its type; what
stands at the place; a word for what refuses there, for what the room holds, or for what is counted; and the reason, which a reader checks. Of room
and of numbers it says what bounds them. What is called in a place of the third kind is what has such a reason in `no_memory.tsv`.

A word in backquotes is a name that the function must have: where it calls something else, what refuses is something else. Nothing more of the
function is compared, so an edit that neither adds a place nor takes one away breaks no table. Faults are planted in a small crate and in both
tables, and each has to be noticed.
"""
import collections
import pathlib
import re

from auditing.code import File, blank
from auditing.index import Index

from . import audits
from .files import write
from .runs import Reading

COLUMNS = ["crate", "function", "place", "word", "reason"]
TABLES = pathlib.Path(__file__).parent
# What answers that memory is out. Apart from it: what is brought or is ghost, a variant where it is declared, a type, a value in a contract, a
# pattern, and what is compared.
OUT_OF_MEMORY = re.compile(r"\b(?:AllocError|AllocFailed|NoMemory|OutOfMemory)\b")
SAYS_NOTHING = re.compile(
    r"^ *(?:pub(?:\(\w+\))? )?(?:ghost|use) [^;]*;"
    r"|^ *(?:ensures|requires) .*"
    r"|^ *(?:NoMemory|OutOfMemory)(?: = \d+)?,$"
    r"|\bAllocError>|: AllocError\b|\bAllocFailed<T>"
    r"|\.NoMemory\b|≡ NoMemory\b"
    r"|\S*NoMemory\b[^\n=]*=>|\S*OutOfMemory\b[^\n=]*=>"
    r"|== ErrorKind::OutOfMemory\b",
    re.M,
)
# What asks for room by a number. Apart from it: what is brought or is ghost, and a function where it is declared.
ROOM = re.compile(r"\b(?:with_capacity|reserve(?:_exact)?|resize(?:_with)?|repeat(?:_n)?)(?=\()|\bvec!(?=\[in [^;\]]*;[^;\]]*;)")
ASKS_NOTHING = re.compile(r"^ *(?:pub(?:\(\w+\))? )?(?:ghost|use) [^;]*;|\bfn \w+", re.M)
# The patterns of each table; those of calls are made of another.
KINDS = {"no_memory.tsv": (OUT_OF_MEMORY, SAYS_NOTHING), "room.tsv": (ROOM, ASKS_NOTHING), "by_number.tsv": (None, ASKS_NOTHING)}
OF_A_NUMBER, NOTHING = "no memory was refused", re.compile(r"(?!)")

Row = collections.namedtuple("Row", COLUMNS)
# Its crate, its function, and what stands there; its file and line, and the text of the function after its name, without its contract.
Place = collections.namedtuple("Place", "crate function says where text")


def files_of(index):
    """The sources that aren't tests."""
    crates = [it for it in sorted((index.top / "crates").iterdir()) if (it / "specs").is_dir() or it.name == "sievebench_cli"]
    paths = [(crate.name, path) for crate in crates for path in sorted((crate / "src").rglob("*.rt")) if "tests" not in path.parts]
    return [File(index, crate, (), path) for crate, path in paths]


def places_of(file, pattern, apart):
    """Each place of a file that a pattern finds, apart from what another finds."""
    for found in pattern.finditer(apart.sub(blank, file.plain)):
        path = re.search(r"[\w:]*\Z", file.plain[: found.start()])[0]
        around = [it for it in file.functions if it.head <= found.start() < file.close(it.end)]
        name, text = in_function(file, around[-1]) if around else ("no function", "")
        yield Place(file.crate, name, path + found[0], f"{file.file}:{file.line(found.start())}", text)


def in_function(file, function):
    """The name of a function of a file, after its type where it has one, and what comes after it, without the contract."""
    head = file.plain[slice(*function.signature)].partition(function.name)[2]
    return "::".join(function.path()[1:]), head + file.plain[function.end : file.close(function.end)]


def read(table):
    """The rows of a table, and what is wrong with their form."""
    head, *lines = (line.split("\t") for line in table.read_text(encoding="utf-8").splitlines())
    wrong = [] if head == COLUMNS else [f"{table.name}: its columns are {', '.join(head)}, and {', '.join(COLUMNS)} are wanted"]
    for at, cells in enumerate(lines, 2):
        if len(cells) != len(COLUMNS) or not all(map(str.strip, cells)):
            wrong.append(f"{table.name}, line {at}: a cell is empty, or there aren't {len(COLUMNS)}")
    return [Row(*cells) for cells in lines if len(cells) == len(COLUMNS)], wrong


def compared(table, rows, places):
    """What is wrong with the rows of a table, beside the places that there are."""
    wanted, made = ({key: list(those) for key, those in grouped(them).items()} for them in (rows, places))
    for key in sorted({*wanted, *made}):
        yield from counted(table, key, wanted.get(key, []), made.get(key, []))
        yield from named(table, key, wanted.get(key, []), made.get(key, []))


def grouped(them):
    """Rows or places by their first cells: the crate, the function, and what stands there."""
    found = {}
    for it in them:
        found.setdefault(tuple(it[:3]), []).append(it)
    return found


def counted(table, key, rows, places):
    """That there are more places of a kind in a function than rows, or fewer."""
    crate, function, says = key
    told = f"{crate}, {function}: {says}: {len(places)} found, {len(rows)} in {table}"
    if len(places) > len(rows):
        yield f"{told}: add a row with its reason for what is new, of {', '.join(it.where for it in places)}"
    elif len(rows) > len(places):
        yield f"{told}: take out the row of what is gone, of {', '.join(it.word for it in rows)}"


def named(table, key, rows, places):
    """That the words of rows aren't told apart, or aren't names of their function."""
    crate, function, says = key
    for row in rows if places else ():
        name = re.fullmatch(r"`(.+)`", row.word)
        if name and not any(re.search(rf"(?<!\w){re.escape(name[1])}(?!\w)", it.text) for it in places):
            yield f"{crate}, {function}: it has no {row.word}, which {table} has as the word of {says}: say in the row what stands there now"
    for word, count in collections.Counter(it.word for it in rows).items():
        if count > 1:
            yield f"{crate}, {function}: {count} rows of {table} for {says} have the word {word}: give each its own"


class Places(Reading):
    """Whether the places that have certain words are those of a table. The index says of which crates."""

    def __init__(self, title, table, index):
        self.title, self.command, self.table, self.index = title, table.name, table, index

    def found(self, path):
        """What is otherwise."""
        places = places_in(self.index(), self.table)
        self.looked = len(places)
        rows, wrong = read(self.table)
        return [*wrong, *compared(self.table.name, rows, places)]


def places_in(index, table):
    """The places of a table's kind."""
    pattern, apart = KINDS[table.name]
    called = {} if pattern else calls(table.parent / "no_memory.tsv")
    return [it for file in files_of(index) for it in places_of(file, pattern or called.get(file.crate, NOTHING), apart)]


def calls(table):
    """Of each crate the calls of what answers that memory is out of a number."""
    names = {}
    for row in (it for it in read(table)[0] if it.reason.startswith(OF_A_NUMBER)):
        names.setdefault(row.crate, []).append(row.function.rpartition("::")[2])
    return {crate: re.compile(rf"\b(?:{'|'.join(them)})(?=\()") for crate, them in names.items()}


class Rows(Reading):
    """Whether it is noticed where a row of a table is gone, or stands twice."""

    title = "rows that are gone or stand twice"

    def __init__(self, table):
        self.command, self.table = table.name, table

    def found(self, path):
        """The rows of which it isn't."""
        places, (rows, _) = places_in(audits.crates(), self.table), read(self.table)
        self.looked = len(rows)
        others = [(row, [*rows[:at], *more, *rows[at + 1 :]]) for at, row in enumerate(rows) for more in ([], [row, row])]
        return [f"nothing says so of {row}" for row, those in others if not list(compared(self.command, those, places))]


SOURCE = "crates/low/src/lib.rt"
FILES = {
    "crates/low/specs/Lib.antt": "",
    SOURCE: """\
//! Bags.
use std::alloc::AllocError;

pub enum Fault {
    Full,
    NoMemory,
}

impl From<AllocError> for Fault {
    fn from(_e: AllocError) -> Fault {
        Fault::NoMemory
    }
}

impl Bag {
    /// Fills it, or answers `NoMemory`.
    pub fn put(&mut self, parts: &[u8]) -> Result<u64, Fault>
        ensures err { IfErr result (λ why. why ≡ NoMemory) }
    {
        let count = parts.len();
        let mut kept = Vec::with_capacity(self.alloc, count)?;
        match self.put(&mut kept, parts) {
            Ok(()) => Ok(count),
            Err(_) => Err(Fault::NoMemory),
        }
    }
}

/// One more. More than 64 bits are answered as out of memory.
fn next(count: u64) -> Result<u64, AllocError> {
    count.checked_add(1).ok_or(AllocError)
}

fn count(bag: &Bag) -> Result<u64, AllocError> {
    next(bag.len)
}
""",
    "no_memory.tsv": """\
crate	function	place	word	reason
low	Fault::from	Fault::NoMemory	`AllocError`	`?` puts it there
low	Bag::put	Fault::NoMemory	`put`	`put` has no other refusal
low	next	AllocError	`checked_add`	no memory was refused, but a count has 64 bits
""",
    "room.tsv": """\
crate	function	place	word	reason
low	Bag::put	Vec::with_capacity	parts	one for each
""",
    "by_number.tsv": """\
crate	function	place	word	reason
low	count	next	what is there	each has an octet
""",
}
# What is changed in a file, what stands in its place, and what must be said of both tables.
PLANTED = [
    ("a local has another name", SOURCE, "kept", "held", []),
    ("another line of the function is changed", SOURCE, "parts.len();", "parts.len() + 1;", []),
    ("a line comes before it", SOURCE, "let count", "self.clear();\n        let count", []),
    ("a statement becomes two", SOURCE, "match self.put(&mut kept, parts) {", "let done = self.put(&mut kept, parts);\n        match done {", []),
    ("arms change their places", SOURCE, "Ok(()) => Ok(count),\n            Err(_) => Err(Fault::NoMemory),", "Err(_) => Err(Fault::NoMemory),\n            Ok(()) => Ok(count),", []),
    ("a comment says it", SOURCE, "Ok(count),", "Ok(count), // and not Fault::NoMemory", []),
    (
        "a place more",
        SOURCE,
        "Ok(()) => Ok(count),",
        "Ok(()) if count > 9 => Err(Fault::NoMemory),\n            Ok(()) => Ok(count),",
        ["low, Bag::put: Fault::NoMemory: 2 found, 1 in no_memory.tsv: add a row with its reason for what is new, of crates/low/src/lib.rt:23, crates/low/src/lib.rt:25"],
    ),
    ("a place less", SOURCE, "Err(Fault::NoMemory)", "Err(Fault::Full)", ["low, Bag::put: Fault::NoMemory: 0 found, 1 in no_memory.tsv: take out the row of what is gone, of `put`"]),
    ("room more", SOURCE, "let count", "self.names.reserve(1)?;\n        let count", ["low, Bag::put: reserve: 1 found, 0 in room.tsv: add a row with its reason for what is new, of crates/low/src/lib.rt:20"]),
    ("room less", SOURCE, "Vec::with_capacity(self.alloc, count)?", "Vec::new(self.alloc)", ["low, Bag::put: Vec::with_capacity: 0 found, 1 in room.tsv: take out the row of what is gone, of parts"]),
    ("a number more", SOURCE, "next(bag.len)", "next(next(bag.len)?)", ["low, count: next: 2 found, 1 in by_number.tsv: add a row with its reason for what is new, of crates/low/src/lib.rt:35, crates/low/src/lib.rt:35"]),
    ("a number less", SOURCE, "next(bag.len)", "Ok(bag.len)", ["low, count: next: 0 found, 1 in by_number.tsv: take out the row of what is gone, of what is there"]),
    ("another call refuses", SOURCE, "self.put(", "self.put_all(", ["low, Bag::put: it has no `put`, which no_memory.tsv has as the word of Fault::NoMemory: say in the row what stands there now"]),
    (
        "another type has the function",
        SOURCE,
        "impl Bag {",
        "impl Sack {",
        [
            "low, Bag::put: Fault::NoMemory: 0 found, 1 in no_memory.tsv: take out the row of what is gone, of `put`",
            "low, Sack::put: Fault::NoMemory: 1 found, 0 in no_memory.tsv: add a row with its reason for what is new, of crates/low/src/lib.rt:24",
            "low, Bag::put: Vec::with_capacity: 0 found, 1 in room.tsv: take out the row of what is gone, of parts",
            "low, Sack::put: Vec::with_capacity: 1 found, 0 in room.tsv: add a row with its reason for what is new, of crates/low/src/lib.rt:21",
        ],
    ),
    ("a place in no function", SOURCE, "//! Bags.\n", "//! Bags.\nconst OUT: Fault = Fault::NoMemory;\n", ["low, no function: Fault::NoMemory: 1 found, 0 in no_memory.tsv: add a row with its reason for what is new, of crates/low/src/lib.rt:2"]),
    ("a row has no reason", "room.tsv", "one for each", "", ["room.tsv, line 2: a cell is empty, or there aren't 5"]),
    (
        "a row stands twice",
        "room.tsv",
        "low\tBag::put\tVec::with_capacity\tparts\tone for each\n",
        "low\tBag::put\tVec::with_capacity\tparts\tone for each\n" * 2,
        [
            "low, Bag::put: Vec::with_capacity: 1 found, 2 in room.tsv: take out the row of what is gone, of parts, parts",
            "low, Bag::put: 2 rows of room.tsv for Vec::with_capacity have the word parts: give each its own",
        ],
    ),
    ("a table has other columns", "room.tsv", "reason", "why", ["room.tsv: its columns are crate, function, place, word, why, and crate, function, place, word, reason are wanted"]),
]


class Planted(Reading):
    """What is said of a change in a small crate, or in its tables."""

    def __init__(self, room, title, file, old, new, wanted):
        self.title, self.command, self.room = f"places: {title}", file, room
        self.file, self.old, self.new, self.wanted = file, old, new, wanted

    def found(self, path):
        """What is said otherwise."""
        self.looked = FILES[self.file].count(self.old)
        texts = {**FILES, self.file: FILES[self.file].replace(self.old, self.new)}
        write(self.room, {name: text.encode() for name, text in texts.items()})
        got = [line for table in KINDS for line in Places("", self.room / table, lambda: Index(self.room)).found(path)]
        return [] if got == self.wanted else [f"wanted {self.wanted}, got {got}"]


def of_code(room):
    """The tables, and whether changes of them and of the code are noticed."""
    yield Places("the places that say that memory is out", TABLES / "no_memory.tsv", audits.crates)
    yield Places("the places that ask for room by a number", TABLES / "room.tsv", audits.crates)
    yield Places("the calls of what refuses a number", TABLES / "by_number.tsv", audits.crates)
    yield from (Rows(TABLES / table) for table in KINDS)
    for number, planted in enumerate(PLANTED):
        yield Planted(room / str(number), *planted)
