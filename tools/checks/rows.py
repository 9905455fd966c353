"""The rows of files in `examples/rows`. The title of a row's run begins with the name of its file, and is its name in `docs/language.tsv`.

A file has paragraphs, with empty lines between them, and each is a case. A line `== TITLE` at the head of one is the title of it and of
those after it, and a line `# ..` is a comment. What stands after a mark and a space is a line of octets; where a backslash stands
between the two, as in `@\\ A: b\\r\\n`, the octets have the escapes \\n, \\r, \\t, \\\\ and \\xHH, and no LF of their own. So do texts.

`*.rows`: what becomes of a script and a mail. `| ` a line of the script, and where there is none, the script of the case before; `@ ` a
line of the mail, which has no octets without one; `% ` the envelope's sender and recipient; `+ ` the names of the profile in their order,
and without such a line it is empty; then the lines of the verdict, `> `; or the script's fault, `! `; or the lines of its code, `= `, with
`=` alone for none.

`*.faults`: the faults of scripts. After `== FAULT`, which is `ok` for none, stands a text a line, with escapes, and `\\` alone for no
octets; `FAULT: TEXT` is its title. Lines `| ` stand before each text of the paragraph and of those after it, up to other such lines; `|\\`
stands for none. `+ `, the names of the profile in their order, holds for the paragraph.

`*.sessions`: `< ` a line of the input, `> ` one of the replies, `+ ` the names of the profile, `= ` the status where it isn't 0.

`*.words`: `$ ` the words of a command line after `sievebench`, as a shell reads them; `> ` a line of standard output, `2> ` of standard
error; `= ` the status where it isn't 0.
"""
import re
import sys

from . import runs

ESCAPES = {"n": b"\n", "r": b"\r", "t": b"\t", "\\": b"\\"}


class Case:
    """A paragraph: the octets after its marks, joined, and the lines by their marks."""

    def __init__(self, title, paragraph, marks):
        self.title, self.octets, self.lines = title, {}, {}
        for line in paragraph:
            mark = next((mark for mark in marks if line.startswith(mark)), None)
            if mark is None:
                sys.exit(f"{title}: `{line}` is no line of a case")
            after = line[len(mark) :]
            octets = unescaped(after[2:]) if after[:1] == "\\" else after[1:].encode() + b"\n"
            self.octets[mark] = self.octets.get(mark, b"") + octets
            self.lines.setdefault(mark, []).append(after[1:])

    def status(self):
        """The status that is wanted."""
        return int(self.lines.get("=", ["0"])[0])


def unescaped(text):
    """The octets of a text with escapes."""
    pieces = re.split(r"(\\x[0-9a-f]{2}|\\.)", text)
    return b"".join(octets_of(piece) for piece in pieces)


def octets_of(piece):
    """The octets of an escape, or of a text without one."""
    if not piece.startswith("\\"):
        return piece.encode()
    return bytes.fromhex(piece[2:]) if piece[1] == "x" else ESCAPES[piece[1]]


def paragraphs(path):
    """Each paragraph of a file that isn't all comments, with its title."""
    title = ""
    for paragraph in re.split(r"\n\n+", path.read_text(encoding="utf-8").strip("\n")):
        lines = [line for line in paragraph.split("\n") if not line.startswith("#")]
        if lines and lines[0].startswith("== "):
            title, lines = lines[0][3:], lines[1:]
        if lines:
            yield title, lines


def of_scripts(path, room):
    """The cases of a `*.rows` file."""
    script = b""
    for title, paragraph in paragraphs(path):
        case = Case(f"{path.name}, {title}", paragraph, "|@%+>!=")
        script, mail = case.octets.get("|", script), case.octets.get("@", b"")
        envelope = case.lines.get("%", ['"" ""'])[0]
        names = case.lines.get("+", [""])[0]
        wanted = [mark for mark in ">!=" if mark in case.lines]
        if len(wanted) != 1:
            sys.exit(f"{case.title}: a case has one of `>`, `!` and `=`: {paragraph}")
        if wanted == ["="]:
            yield runs.dumped(room, case.title, script, [line for line in case.lines["="] if line], names)
        else:
            yield runs.reported(room, case.title, script, [mail], [case.lines.get(">")], case.lines.get("!", ["ok"])[0], envelope, names)


def of_faults(path, room):
    """The texts of a `*.faults` file."""
    front = b""
    for fault, paragraph in paragraphs(path):
        case = Case(path.name, [line for line in paragraph if line[:1] in ("|", "+")], "|+")
        front = case.octets.get("|", front)
        names = case.lines.get("+", [""])[0]
        texts = [text for text in paragraph if text[:1] not in ("|", "+")]
        if not texts:
            sys.exit(f"{path.name}, {fault}: no text has this fault")
        for text in texts:
            script = front + unescaped(text if text != "\\" else "")
            replies = runs.lines("ok", "main none", runs.SETTINGS, *runs.profile_lines(names), f'script personal "main" {fault}', "total 0 messages 0 errors")
            yield runs.session(room, f"{path.name}, {fault}: {text}", runs.put(b"script personal main", script) + b"report\n", replies, names=names)


def of_sessions(path, room):
    """The cases of a `*.sessions` file."""
    for title, paragraph in paragraphs(path):
        case = Case(f"{path.name}, {title}", paragraph, "<>=+")
        names = case.lines.get("+", [""])[0]
        yield runs.session(room, case.title, case.octets.get("<", b""), case.octets.get(">", b""), case.status(), names)


def of_words(path, room):
    """The cases of a `*.words` file."""
    for title, paragraph in paragraphs(path):
        case = Case(f"{path.name}, {title}", paragraph, ["$", ">", "2>", "="])
        output, error = (case.octets.get(mark, b"") for mark in (">", "2>"))
        yield runs.Run(case.title, room, f"sievebench {case.lines['$'][0]}", output, error, case.status())


KINDS = {".rows": of_scripts, ".faults": of_faults, ".sessions": of_sessions, ".words": of_words}


def of_files(folder, room):
    """The cases of all files."""
    room = room / "rows"
    room.mkdir()
    for path in sorted(folder.iterdir()):
        yield from runs.some(f"cases of {path.name}", KINDS[path.suffix](path, room))
