"""`tools/tables` over a small crate, whose pages were written by hand."""
import pathlib
import shutil

from .runs import Run

TOP = pathlib.Path(__file__).resolve().parent.parent.parent
FILES = {
    "crates/ending/src/lib.rt": """\
//! What ends (RFC 1001).
pub mod laws;

/// How it ends (RFC 1002, sections 1, 2.1 and 3 to 5). Then it is over (section 9).
pub enum End {
    /// Well (RFC 1002, section 6; RFC 1001, 3.1 and 4.2 to 4.4).
    Well = 0,
    /// 1: badly | not well.
    Badly,
}

impl End {
    /// Ends it, as [`End`] says (RFC 1001,
    /// section 10). It is over then. Takes no memory.
    pub fn of<T: Fn(u8) -> End>(at: T) -> Result<End, u8>
        requires { at ≡ at }
        ensures ok { at ≡ at }
        ensures { at ≡ at }
    {
    }

    fn hidden() {}
}
""",
    "crates/ending/src/laws.rt": """\
ghost use Rattle.ending.specs.Least.{least};

/// It ends: RFC 1001 says so, and RFC 1002, appendix B.1.
pub fn it_ends()
    ensures told { least ≡ least }
{}
""",
    "crates/ending/specs/Lib.antt": "pub mod Least\n",
    "crates/ending/specs/Least.antt": """\
-- What is least (RFC 1001, section 1).
use Rattle.std.specs.Prelude.{ℕ}

-- the least (RFC
-- 1002, section 2.1)
abbrev pub least : ℕ
-- RFC 1001, section 2
least = 1

unfoldable mutual
  -- even (RFC 1002, 2.10)
  pub even : ℕ → ℕ
  even n = odd n

  -- ODD (RFC 1002, section 2.10)
  pub odd : ℕ → ℕ
  odd n = even n
""",
    "examples/rows/some.rows": "# By RFC 1001, section 1.\n== RFC 1002, 2.10: a row\n",
    "docs/PROVED.md": """\
## Promises

All rows together stand on 0 definitions of 0 lines.

| Promise | Contract or law | Definitions | Lines |
|---|---|---|---|
| It ends. | `it_ends.told` | 0 | 0 |
| It is of something. | `End::of` | 0 | 0 |
""",
}


# What the pages say after what stands at the top, which is that of the repository's.
PAGES = {
    "CLAUSES.md": """\
## ending

| Function | Answers | Clauses | What it does |
|---|---|---|---|
| `End::of` | `Result<End, u8>` | `ok`, one unnamed; requires one unnamed | Ends it, as `End` says (RFC 1001, section 10). Takes no memory. |

| Law | Clauses | What it says |
|---|---|---|
| `it_ends` | `told` | It ends: RFC 1001 says so, and RFC 1002, appendix B.1. |

| Refusal or end | Number | What it says |
|---|---|---|
| `End::Well` | 0 | Well (RFC 1002, section 6; RFC 1001, 3.1 and 4.2 to 4.4). |
| `End::Badly` | 1 | Badly \\| not well. |
""",
    "RULES.md": """\
## RFC 1001

| Section | In words | Definitions | Code | Tests |
|---|---|---|---|---|
| whole | What ends |  | ending: `lib.rt`, `laws::it_ends` |  |
| 1 | What is least | ending: `Least` |  | `some.rows` |
| 2 |  | ending: `Least.least` |  |  |
| 3.1 | Well |  | ending: `End::Well` |  |
| 4.2 | Well |  | ending: `End::Well` |  |
| 4.3 | Well |  | ending: `End::Well` |  |
| 4.4 | Well |  | ending: `End::Well` |  |
| 10 | Ends it, as `End` says |  | ending: `End::of` |  |

## RFC 1002

| Section | In words | Definitions | Code | Tests |
|---|---|---|---|---|
| 1 | How it ends |  | ending: `End` |  |
| 2.1 | the least | ending: `Least.least` | ending: `End` |  |
| 2.10 | even | ending: `Least.even`, `Least.odd` |  | `some.rows` |
| 3 | How it ends |  | ending: `End` |  |
| 4 | How it ends |  | ending: `End` |  |
| 5 | How it ends |  | ending: `End` |  |
| 6 | Well |  | ending: `End::Well` |  |
| 9 | Then it is over |  | ending: `End` |  |
| B.1 | It ends: RFC 1001 says so, and RFC 1002, appendix B.1 |  | ending: `laws::it_ends` |  |
""",
    "PROVED.md": """\
## Promises

All rows together stand on 4 definitions of 12 lines.

| Promise | Contract or law | Definitions | Lines |
|---|---|---|---|
| It ends. | `it_ends.told` | 2 | 4 |
| It is of something. | `End::of` | 2 | 8 |
""",
}


# Changes of the small crate, one after another, each with what is printed and said then.
CHANGES = [
    ("of no RFC", "printf '# By section 4.\\n' > examples/rows/other.rows", "", "examples/rows/other.rows:1: name the RFC of section 4 before it in this comment\n"),
    ("of an RFC after it", "printf '== section 4 of RFC 1001\\n' > examples/rows/other.rows", "", "examples/rows/other.rows:1: name the RFC of section 4 before it in this comment\n"),
    ("of its comment's RFC", "printf '== RFC 1001, section 4\\n' > examples/rows/other.rows", "docs/RULES.md has changed\n", ""),
    (
        "of an earlier comment's RFC",
        "printf '\\n== section 3: a row\\n' >> examples/rows/some.rows; sed -i 's/-- the least (RFC/-- the least (section 7, RFC/' crates/ending/specs/Least.antt",
        "",
        "crates/ending/specs/Least.antt:4: name the RFC of section 7 before it in this comment\n"
        "examples/rows/some.rows:4: name the RFC of section 3 before it in this comment\n",
    ),
]


def top_of(page):
    """What stands at the top of a page, as that of the repository has it. Nothing is made at the top of the promises."""
    return "" if page == "PROVED.md" else (TOP / "docs" / page).read_text(encoding="utf-8").partition("## ")[0]


def of_sections(room):
    """Sections whose RFC is named, and refusals of those without."""
    for title, change, printed, said in CHANGES:
        yield Run(f"a section {title}", room, f"{change}; tools/tables", printed.encode(), said.encode(), 1 if said else 0)


def of_tables(room):
    """The pages, that nothing changes the second time, and sections without an RFC."""
    for name, text in FILES.items():
        (room / name).parent.mkdir(parents=True, exist_ok=True)
        (room / name).write_text(text, encoding="utf-8")
    (room / "tools").mkdir()
    for name in ("tables", "command.py", "tabling", "auditing"):
        copy = shutil.copytree if (TOP / "tools" / name).is_dir() else shutil.copy
        copy(TOP / "tools" / name, room / "tools" / name)
    changed = "docs/CLAUSES.md has changed\ndocs/RULES.md has changed\ndocs/PROVED.md has changed\n"
    yield Run("tables of a small crate", room, "tools/tables", changed.encode())
    for page, text in PAGES.items():
        yield Run(f"tables of a small crate: {page}", room, f"cat docs/{page}", (top_of(page) + text).encode())
    yield Run("tables that are made already", room, "tools/tables", b"")
    yield from of_sections(room)
