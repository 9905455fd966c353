#!/usr/bin/env python3
"""In place of the program: it speaks sessions, and knows of Sieve what the tests of this folder need. It is no model of the program."""

import itertools
import os
import pathlib
import sys
import time
from typing import Dict, Iterator, List, NoReturn, Optional, Tuple

sys.path.insert(0, str(pathlib.Path(__file__).resolve().parent.parent))

from sievebench_site.sieve_text import Token, line_requiring, required, string_meant, tokens  # noqa: E402
from sievebench_site.words import quoted, unquoted, words_of  # noqa: E402

KNOWN = {b"fileinto", b"envelope", b"imap4flags", b"include", b"copy", b"variables"}
OFFERED = ("vacation", "mailbox", "unused")
Scripts = Dict[Tuple[str, bytes], bytes]


class End(Exception):
    """A `stop`, or an error with its line."""


class Run:
    """A run of a main script over a mail."""

    def __init__(self, bench: "Bench", mail: bytes, envelope: List[bytes]) -> None:
        self.bench, self.mail, self.envelope = bench, mail.lower(), envelope
        self.stores: Dict[bytes, Tuple[List[bytes], str]] = {}
        self.order: List[Tuple[str, bytes, str]] = []
        self.flags: List[bytes] = []
        self.implicit, self.error = True, ""
        self.reads: List[str] = []

    def script(self, place: str, name: bytes, optional: bool = False) -> None:
        """Runs a script, which may be missing where it is optional."""
        self.place = f"{place} {quoted(name)}"
        text = self.bench.scripts.get((place, name))
        read = self.place + ("" if text is not None else " missing")
        self.reads += [] if read in self.reads else [read]
        if text is None and optional:
            return
        if text is None or self.bench.fault(text):
            self.fail(0, "missing-script" if text is None else "invalid-script")
        self.commands(text, list(tokens(text)))

    def fail(self, line: int, kind: str) -> NoReturn:
        """Ends the run with an error."""
        self.error, self.order, self.implicit, self.flags = f"error {self.place} line {line} {kind}", [], True, []
        raise End

    def commands(self, text: bytes, left: List[Token]) -> None:
        """Runs commands, and blocks whose test holds."""
        taken = False
        while left:
            words = [left.pop(0)]
            while words[-1].octets not in (b";", b"{"):
                words.append(left.pop(0))
            if words[-1].octets == b"{":
                depth, block = 1, []
                while depth:
                    block.append(left.pop(0))
                    depth += {b"{": 1, b"}": -1}.get(block[-1].octets, 0)
                taken = taken and words[0].octets != b"if"
                if not taken and self.holds(words):
                    taken = True
                    self.commands(text, block[:-1])
            else:
                self.command(text, words)

    def holds(self, words: List[Token]) -> bool:
        """A test, or an `else`."""
        strings = [string_meant(it.octets) for it in words if it.kind == "string"]
        name = words[1].octets
        if name in (b"true", b"false", b"{"):
            return name != b"false"
        if name == b"size":
            return len(self.mail) > int(words[3].octets)
        if name == b"hasflag":
            return strings[0].lower() in [flag.lower() for flag in self.flags]
        if name == b"envelope":
            return self.envelope[strings[0] == b"to"] == strings[1]
        return any(key.lower() in self.mail for key in strings[1:])

    def command(self, text: bytes, words: List[Token]) -> None:
        """A command."""
        name, line = words[0].octets, text.count(b"\n", 0, words[0].start) + 1
        tags = [it.octets for it in words if it.kind == "tag"]
        strings = [string_meant(it.octets) for it in words if it.kind == "string"]
        if name == b"setflag":
            self.flags = strings
        elif name == b"addflag":
            self.flags += [flag for flag in strings if flag not in self.flags]
        elif name == b"removeflag":
            self.flags = [flag for flag in self.flags if flag not in strings]
        elif name == b"stop":
            raise End
        elif name == b"sleep":
            pathlib.Path("asleep").touch()
            time.sleep(float(strings[0]))
        elif name == b"include":
            here = self.place
            self.script("global" if b":global" in tags else "personal", strings[-1], b":optional" in tags)
            self.place = here
        elif name in (b"keep", b"fileinto", b"redirect", b"discard"):
            self.act(name, line, tags, strings)

    def act(self, name: bytes, line: int, tags: List[bytes], strings: List[bytes]) -> None:
        """An action."""
        if b"" in strings or b"a${none}" in strings:
            self.fail(line, "bad-mailbox" if name == b"fileinto" else "bad-address")
        at = f"  at {self.place} line {line}"
        flags = [strings[0]] if b":flags" in tags else list(self.flags)
        if name in (b"keep", b"fileinto"):
            box = self.bench.box if name == b"keep" else strings[-1]
            if box in self.stores:
                self.stores[box][0].extend(flag for flag in flags if flag not in self.stores[box][0])
            else:
                self.stores[box] = (flags, at)
                self.order.append(("store", box, at))
        elif name == b"redirect":
            self.order.append((f"redirect {quoted(strings[-1])}", b"", at))
        else:
            self.order.append(("discard", b"", at))
        self.implicit = self.implicit and b":copy" in tags

    def told(self) -> List[str]:
        """The lines of the verdict."""
        lines = []
        for what, box, at in self.order:
            lines += ["  " + (store(what, box, self.stores[box][0]) if what == "store" else what), at]
        lines += ["  " + store("implicit", self.bench.box, self.flags)] if self.implicit else []
        return lines + ([f"  {self.error}"] if self.error else []) + [f"  read {it}" for it in self.reads]


def store(what: str, box: bytes, flags: List[bytes]) -> str:
    """The line of a store."""
    return " ".join([what, quoted(box), *(quoted(flag) for flag in flags)])


def includes(text: bytes) -> Iterator[str]:
    """The operations of a dump that include scripts."""
    words = list(tokens(text))
    for at, word in enumerate(words):
        if word.octets == b"include":
            rest = list(itertools.takewhile(lambda it: it.octets != b";", words[at:]))
            place = "global" if b":global" in [it.octets for it in rest] else "personal"
            yield f"{at}: include {place} {quoted(string_meant(rest[-1].octets))} @1"


class Bench:
    """The session."""

    def __init__(self, names: List[bytes]) -> None:
        self.scripts: Scripts = {}
        self.mails: Dict[bytes, Tuple[bytes, List[bytes]]] = {}
        self.main: Optional[Tuple[str, bytes]] = None
        self.box, self.known = b"INBOX", KNOWN | set(names)

    def fault(self, text: bytes) -> Optional[str]:
        """The fault of a script."""
        unknown = [name for name in required(text)[1] if name not in self.known]
        if unknown and b"unused" not in self.known:
            return f"line {line_requiring(text, unknown[0])} unknown-capability"
        if b":regex" in [it.octets for it in tokens(text)]:
            return "line 2 bad-tag"
        lines = [text.count(b"\n", 0, it.start) + 1 for it in tokens(text) if it.octets == b"kep"]
        return f"line {lines[0]} unknown-command" if lines else None

    def report(self) -> List[str]:
        """The report."""
        lines = [
            f"script {place} {quoted(name)} {self.fault(text) or 'ok'}" for (place, name), text in self.scripts.items()
        ]
        for name, (mail, envelope) in self.mails.items():
            run = Run(self, mail, envelope)
            try:
                run.script(*(self.main or ("personal", b"")))
            except End:
                pass
            lines += [f"message {quoted(name)}", *(["  envelope x"] if any(envelope) else []), *run.told()]
        return lines + [f"total {len(self.mails)} messages 0 errors"]

    def answer(self, words: List[bytes], octets: bytes) -> List[str]:
        """The reply to a line."""
        command, *rest = [unquoted(word) for word in words]
        if command == b"report":
            lacks = [b"no memory to run"]
            if any(b"reached.invalid" in script for script in self.scripts.values()):
                lacks.append(b"no memory to ask")
            refused = any(lack in mail for lack in lacks for mail, _ in self.mails.values())
            return ["no no-memory"] if refused and self.main else self.report()
        if command == b"dump":
            text = self.scripts.get((rest[0].decode(), rest[1]), b"kep;")
            return ["no invalid-script"] if self.fault(text) else [*includes(text), "ok"]
        if command == b"script":
            self.scripts[rest[0].decode(), rest[1]] = octets
        elif command == b"message":
            if len(octets) > 16_777_216:
                return ["no too-large"]
            if b"no memory to put" in octets:
                return ["no no-memory"]
            self.mails[rest[0]] = (octets, [b"", b""])
        elif command == b"message-envelope":
            self.mails[rest[0]] = (self.mails[rest[0]][0], rest[1:])
        elif command == b"main":
            self.main = rest[0].decode(), rest[1]
        elif command == b"mailbox":
            self.box = rest[0]
        elif command == b"drop-script":
            del self.scripts[rest[0].decode(), rest[1]]
        elif command == b"drop-message":
            del self.mails[rest[0]]
        return ["ok"]


def main() -> int:
    """Answers a session, or tells a version."""
    if sys.argv[1] == "--version":
        print("sievebench 0.0.0")
        return 0
    if sys.argv[1] == "help":
        print("      --with <NAME>  What it knows:")
        print("".join(f"                       {name}  a capability\n" for name in OFFERED), end="")
        return 0
    assert sys.argv[1] == "session"
    names = os.fsencode(sys.argv[2]).partition(b"=")[2].split(b",")
    bench, source = Bench(names), sys.stdin.buffer
    for line in iter(source.readline, b""):
        words = words_of(line.rstrip(b"\n")) or [b""]
        counts = words[0] in (b"script", b"message", b"mailboxes", b"expect")
        octets = source.read(int(words[-1])) if counts else b""
        print("\n".join(bench.answer(words[:-1] if counts else words, octets)), flush=True)
    return 0


if __name__ == "__main__":
    sys.exit(main())
