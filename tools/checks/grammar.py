"""Scripts and mails at random, of all words that the language has. A script is written by rows like those of `docs/LANGUAGE.md`, and requires
just what its words need: so it has no fault where all of that may be required, and one where something may not. Some scripts have one fault
more, a line of `docs/faults.tsv`: it is known which fault that is, and in which line.
"""
import base64
import re

from . import bodies, dates, faults

# A row: a command or a test, and its arguments. Those in square brackets may be left out, those in braces are left out seldom, and those in angle
# brackets never. A bar stands between tags of which one is taken, and after a plus stands what has to be required. A word in capital letters is a
# value; PART and COMPARE stand for tags that several rows have.
COMMANDS = """
keep [:flags+imap4flags FLAGS]
fileinto+fileinto [:flags+imap4flags FLAGS] [:copy+copy] [:create+mailbox] [:specialuse+special-use USE] BOX
redirect [:copy+copy] ADDRESS
discard
stop
return+include
vacation+vacation [:days NUMBER] [:subject TEXT] [:from ADDRESS] [:addresses ADDRESSES] [:mime] [:handle TEXT] TEXT
reject+reject TEXT
ereject+ereject TEXT
set+variables [:lower|:upper] [:lowerfirst|:upperfirst] [:quotewildcard] [:length] NAME TEXT
setflag+imap4flags [NAME+variables] FLAGS
addflag+imap4flags [NAME+variables] FLAGS
removeflag+imap4flags [NAME+variables] FLAGS
include+include [:personal|:global] [:once] {:optional} SCRIPT
global+include+variables GLOBALS
"""
TESTS = """
address [PART] [COMPARE] ADDRESS_FIELDS KEYS
envelope+envelope [PART] [COMPARE] ENVELOPE_PARTS KEYS
header [COMPARE] FIELDS KEYS
exists FIELDS
size <:over|:under> NUMBER
true
false
string+variables [COMPARE] TEXTS KEYS
hasflag+imap4flags [COMPARE] [NAMES+variables] KEYS
mailboxexists+mailbox BOXES
duplicate+duplicate [:handle PLAIN] [:header PLAIN|:uniqueid PLAIN] [:seconds NUMBER] [:last]
date+date [:zone ZONE|:originalzone] [COMPARE] DATE_FIELD DATE_PART KEYS
currentdate+date [:zone ZONE] [COMPARE] DATE_PART KEYS
body+body [:raw|:text|:content TYPES] [COMPARE] KEYS
"""
# Tests of which the verdict shows what they find.
SHOWN = """
header :matches FIELDS "*"
envelope+envelope :matches ENVELOPE_PARTS "*"
currentdate+date [:zone ZONE] :matches DATE_PART "*"
date+date [:zone ZONE] :matches DATE_FIELD DATE_PART "*"
mailboxexists+mailbox ASKED_BOX
"""
PARTS = ":all|:localpart|:domain|:user+subaddress|:detail+subaddress"
MATCH_TYPES = ":is|:contains|:matches|:value+relational RELATION|:count+relational RELATION"
COMPARATORS = {"i;octet": "", "i;ascii-casemap": "", "i;ascii-numeric": "comparator-i;ascii-numeric"}
RELATIONS = "gt ge lt le eq ne".split()
# What every bench knows, and what needs no `require`, with a name that nothing knows.
ALWAYS = set("fileinto envelope variables imap4flags include copy comparator-i;octet comparator-i;ascii-casemap".split())
NEEDLESS, UNKNOWN = ["comparator-i;octet", "comparator-i;ascii-casemap"], "regex"
# What a script must not require so that it has this fault.
BARRED = {"not-required": {"fileinto"}, "bad-namespace": {"include"}}
# Commands that end much are taken less often, and tests more often that ask for what edits change.
RARE = ["stop", "return"]
FREQUENT = {"fileinto": 5, "include": 3, "set": 2, "address": 2, "header": 3, "envelope": 2, "mailboxexists": 4, "currentdate": 3}

SCRIPTS = ["main", "a", "b", "c", 'd "e"']
VARIABLES = ["a", "B", "box_1", "_x"]
BOXES = ["INBOX", "Lists", "one", "Lists/sieve", "Bücher", "lists", "Lists", "one", "two"]
FLAGS = ["\\Seen", "\\seen", "$Junk", "\\Flagged \\Draft", "work", "\\Recent", ""]
ADDRESSES = ["ada@home.example", "Ada <ada@home.example>", "a@b.example", "c@d.example", "ada+lists@home.example", "<x@[10.0.0.1]>"]
FIELDS = "Subject subject List-Id X-Spam-Score From To Date Received Message-ID Content-Type X-None".split()
ADDRESS_FIELDS = "from to cc bcc sender reply-to return-path delivered-to errors-to disposition-notification-to x-original-to envelope-to".split()
ADDRESS_FIELDS += [f"resent-{name}" for name in ADDRESS_FIELDS[:6]]
KEYS = ["", "order", "Offer", "one", "two", "*", "*", "*", "* *", "[*] *", "*o?der*", "a@b.example", "ada", "*@*.example", "home.example", "lists", "5", "10", "0", "1", "3"]
KEYS += ["\\seen", "$junk work", "2026-07-05", "12", "07", "Sun*", "*Grüße*", "text", "é", "<*>"]
TEXTS = ["order", "Offer 7", "one two", "I am away.", "No.", "Grüße", "a*b?c\\d", "", "Re: [sieve] news", "7", "one.\r\n..two"]
TYPES = ["text", "text/plain", "TEXT/html", "", "multipart", "message/rfc822", "application/octet-stream", "a/b/c"]
NUMBERS = ["0", "1", "7", "30", "100", "1K", "2m", "1G", "18446744073709551615"]
LISTS = {"FLAGS": FLAGS, "ADDRESSES": ADDRESSES, "BOXES": BOXES, "KEYS": KEYS, "TEXTS": TEXTS, "FIELDS": FIELDS, "TYPES": TYPES, "NAMES": VARIABLES}
SINGLES = {"TEXT": TEXTS, "PLAIN": TEXTS, "BOX": BOXES, "ASKED_BOX": ["Lists", "one", "lists"], "ADDRESS": ADDRESSES, "SCRIPT": SCRIPTS}
SINGLES.update({"USE": ["\\Junk", "\\Archive"], "ZONE": ["+0200", "-0700", "+0000", "0200"], "DATE_FIELD": ["Date", "Received", "X-None"]})
# Values of which each is noted.
NOTED = {"ADDRESS_FIELDS": ADDRESS_FIELDS, "ENVELOPE_PARTS": ["from", "to"], "DATE_PART": dates.PARTS, "RELATION": RELATIONS}
GAPS = [" "] * 20 + ["\n", "\r\n\t", " # one; {\n", " /* two; } */ "]
SUBJECTS = ["one", "two", "one two", "order 7", "Offer", "[sieve] news", "Grüße", "", "É"]
ROW = re.compile(r"[\[{<][^\]}>]*[\]}>]|\S+")


def rows(text):
    """Each row, by its name."""
    return {re.match(r"[a-z]+", line)[0]: ROW.findall(line) for line in text.replace("PART]", f"{PARTS}]").split("\n") if line}


COMMAND_ROWS, TEST_ROWS, SHOWN_ROWS = rows(COMMANDS), rows(TESTS), rows(SHOWN)


def quoted(text):
    """A string of a script."""
    return '"' + text.replace("\\", "\\\\").replace('"', '\\"') + '"'


def in_lines(text):
    """A string in lines of its own."""
    return "text:\n" + "".join(f"{'.' * line.startswith('.')}{line}\n" for line in text.split("\r\n")) + ".\n"


class Author:
    """Writes one script, of what is known by some names, and notes the words that it has written."""

    def __init__(self, dice, names, barred=()):
        self.dice, self.words = dice, set()
        self.known = (ALWAYS | set(names)) - set(barred)
        # What the script has to require; the variables that are its own; and those that it shares.
        self.required, self.own, self.shared = set(), set(), set()

    def is_rare(self, chance=0.1):
        """Whether something rare is done."""
        return self.dice.random() < chance

    def can(self, needs):
        """Whether all of this may be required."""
        return set(needs) <= self.known

    def word(self, item):
        """A word of the language in any case, of which is noted what it needs."""
        name, *needs = item.split("+")
        self.required.update(needs)
        self.words.add(name)
        return self.dice.choice([name] * 9 + [name.upper(), name.title()])

    # STRINGS

    def string(self, text, is_open=True):
        """A string with this text, or where it is open, maybe with a reference in it."""
        if is_open and self.can(["variables"]) and self.is_rare(0.2):
            self.required.add("variables")
            text += self.reference()
        if text and self.can(["encoded-character"]) and self.is_rare(0.05):
            self.required.add("encoded-character")
            at = self.dice.randrange(len(text))
            code = self.dice.choice([f"${{unicode:{ord(text[at]):x}}}", f"${{Hex: {text[at].encode().hex(' ')} }}"])
            text = text[:at] + code + text[at + 1 :]
        return in_lines(text) if is_open and self.is_rare(0.03) else quoted(text)

    def reference(self):
        """A reference to a variable."""
        if self.can(["include"]) and self.is_rare(0.3):
            self.required.add("include")
            return f"${{global.{self.dice.choice(VARIABLES)}}}"
        return self.dice.choice(["${1}", "${0}", "${99}", "${02}", *(f"${{{name}}}" for name in VARIABLES)])

    def list_of(self, texts, is_open=True):
        """A list of some strings, or one alone."""
        if self.is_rare(0.6):
            return self.string(self.dice.choice(texts), is_open)
        return "[" + ", ".join(self.string(self.dice.choice(texts), is_open) for _ in range(self.dice.randrange(1, 4))) + "]"

    # VALUES, BY THEIR WORDS IN THE ROWS

    def value(self, kind):
        """A value of this kind, or now and then one that nothing can be."""
        if kind in ("BOX", "ADDRESS", "USE") and self.is_rare(0.04):
            return self.string(self.dice.choice(["", "a\tb", "nobody"]))
        if kind in LISTS:
            return self.list_of(LISTS[kind], kind != "NAMES")
        if kind in SINGLES:
            return self.string(self.dice.choice(SINGLES[kind]), kind not in ("SCRIPT", "PLAIN"))
        if kind in NOTED:
            names = self.dice.choices(NOTED[kind], k=1 if kind in ("DATE_PART", "RELATION") else self.dice.randrange(1, 5))
            self.words.update(f"{kind} {name}" for name in names)
            strings = [self.string(name if kind == "RELATION" or self.is_rare(0.8) else name.title(), False) for name in names]
            return strings[0] if len(strings) == 1 else f"[{', '.join(strings)}]"
        if kind == "NUMBER":
            return self.dice.choice(NUMBERS)
        return self.declared() if kind == "GLOBALS" else self.assigned()

    def assigned(self):
        """The name of a variable that a command changes."""
        name = self.dice.choice(VARIABLES)
        if self.can(["include"]) and self.is_rare(0.3):
            self.required.add("include")
            return quoted(f"global.{name}")
        if name.lower() not in self.shared:
            self.own.add(name.lower())
        return quoted(name)

    def declared(self):
        """Names that are declared, which aren't yet the script's own."""
        names = [name for name in [*VARIABLES, "y"] if name.lower() not in self.own]
        names = self.dice.sample(names, min(len(names), self.dice.randrange(1, 3)))
        self.shared.update(name.lower() for name in names)
        return "[" + ", ".join(map(quoted, names)) + "]"

    # COMMANDS AND TESTS

    def option(self, name, choices):
        """One of these tags with its value, of those that may be taken, or nothing."""
        items = [item for item in choices.split("|") if self.can(item.split(" ")[0].split("+")[1:])]
        if not items:
            return []
        tag, *kinds = self.dice.choice(items).split(" ")
        if tag[0] != ":":
            self.required.update(tag.split("+")[1:])
            return [self.value(tag.split("+")[0])]
        self.words.add(f"{name} {tag.split('+')[0]}")
        return [" ".join([self.word(tag), *map(self.value, kinds)])]

    def comparing(self, name):
        """Tags that say how is compared: a comparator, a match type, both or neither."""
        comparators = [it for it, needs in COMPARATORS.items() if self.can(filter(None, [needs]))]
        comparator = self.dice.choice(comparators) if self.is_rare(0.3) else ""
        types = MATCH_TYPES.replace(":contains|:matches|", "") if comparator == "i;ascii-numeric" else MATCH_TYPES
        tags = self.option(name, types) if self.is_rare(0.75) else []
        if comparator:
            self.required.update(filter(None, [COMPARATORS[comparator]]))
            self.words.update([comparator, f"{name} :comparator"])
            tags.append(f"{self.word(':comparator')} {self.string(comparator, False)}")
        return tags

    def by_row(self, row):
        """A command or a test, without what ends it."""
        head, *parts = row
        name, tags, slots = head.partition("+")[0], [], []
        for part in parts:
            inner, chance = part.strip("[]{}<>"), {"[": 0.45, "{": 0.9}.get(part[0], 1)
            if inner == "COMPARE":
                tags += self.comparing(name)
            elif inner[0] == ":" or chance < 1:
                (tags if inner[0] == ":" else slots).extend(self.option(name, inner) if self.is_rare(chance) else [])
            else:
                slots.append(inner if inner[0] == '"' else self.value(inner))
        self.dice.shuffle(tags)
        return self.dice.choice(GAPS).join([self.word(head), *tags, *slots])

    def chosen(self, table, evenly=False):
        """A row of those that may be taken, each as often as it is to be."""
        rows = {name: row for name, row in table.items() if self.can(row[0].split("+")[1:])}
        weights = [1 if evenly or name in RARE else 3 * FREQUENT.get(name, 1) for name in rows]
        return self.dice.choices(list(rows.values()), weights)[0]

    def test(self, depth=0):
        """A test, maybe of others."""
        if depth == 3 or self.is_rare(0.75):
            return self.by_row(self.chosen(TEST_ROWS))
        name = self.word(self.dice.choice(["not", "allof", "anyof"]))
        if name.lower() == "not":
            return f"{name} {self.test(depth + 1)}"
        return f"{name}{self.dice.choice(['', ' '])}({', '.join(self.test(depth + 1) for _ in range(self.dice.randrange(1, 4)))})"

    def block(self, depth):
        """Some commands in braces."""
        return "{ " + self.dice.choice(GAPS).join(self.command(depth + 1) for _ in range(self.dice.randrange(3))) + " }"

    def command(self, depth=0):
        """A command, maybe with branches."""
        if depth == 3 or self.is_rare(0.6):
            return self.by_row(self.chosen(COMMAND_ROWS)) + ";"
        branches = [f"{self.word('if')} {self.test()} {self.block(depth)}"]
        while self.is_rare(0.2):
            branches.append(f"{self.word('elsif')} {self.test()} {self.block(depth)}")
        if self.is_rare(0.3):
            branches.append(f"{self.word('else')} {self.block(depth)}")
        return self.dice.choice(GAPS).join(branches)

    def shown(self):
        """A command of which the verdict shows what the message or the bench is like."""
        self.required.update(["fileinto", "variables"])
        return f'{self.word("if")} {self.by_row(self.chosen(SHOWN_ROWS, evenly=True))} {{ {self.word("fileinto")} "{self.dice.choice("xyz")} ${{1}}"; }}'

    def script(self, wrong=None, at_top=False):
        """A script, which has this line of the table of faults where one is given, and the number of that line."""
        commands = [self.shown() for _ in range(self.dice.randrange(1, 4) if self.can(["fileinto"]) else 0)]
        if self.can(["include"]) and self.is_rare(0.35):
            commands.append(f"{self.by_row(COMMAND_ROWS['include'])};")
        commands += [self.command() for _ in range(self.dice.randrange(1, 5))]
        answers = [name for name in ("reject", "ereject", "vacation") if name in self.known]
        if answers and self.is_rare(0.15):
            # A rejection is alone, since a store goes with none.
            commands = [f"{self.by_row(COMMAND_ROWS[self.dice.choice(answers)])}; {self.word('stop')};", *commands]
        # What is required after another command is another fault.
        place = 0 if wrong is None or at_top or wrong["wrong"].startswith("require ") else self.dice.randrange(len(commands) + 1)
        if wrong is not None:
            self.required.update(re.findall(r'"([^"]*)"', wrong["front"]))
            commands[place:place] = [f"{faults.spelled(wrong['wrong'])}\n"]
        required = sorted(self.required | ({self.dice.choice(NEEDLESS)} if self.is_rare() else set()))
        self.words.update(f"require {name}" for name in required)
        self.dice.shuffle(required)
        lists = [required] if self.is_rare(0.7) else [[name] for name in required]
        head = "".join(f"{self.word('require')} [{', '.join(map(quoted, names))}];\n" for names in lists if names)
        gap = self.dice.choice(GAPS)
        before = head + gap.join([*commands[:place], "\n"])
        return before + gap.join(commands[place:]), before.count("\n") + 1


def table():
    """The lines of the table of faults, each by its columns."""
    columns, *lines = faults.cells()
    return [dict(zip(columns, line)) for line in lines]


# MAILS


def word_of(dice, text, words):
    """An encoded word, in a charset that has all of the text, or that hasn't."""
    name = dice.choice([*bodies.CODECS, "latin1"])
    words.add(f"charset {name}")
    octets = text.encode(bodies.CODECS.get(name, "latin-1"), "replace")
    if dice.random() < 0.5:
        return f"=?{name}?b?{base64.b64encode(octets).decode()}?="
    return f"=?{name.upper()}?Q?{''.join(f'={it:02X}' for it in octets)}?="


def mail(dice, words):
    """A mail: fields of which some come twice or not at all, and entities in one another or a line of text."""
    moment, zone = dates.moment_of(dice)
    subject = dice.choice(SUBJECTS)
    subject = word_of(dice, subject, words) if dice.random() < 0.7 else subject
    fields = [f"Subject: {subject}", f"From: {dice.choice(ADDRESSES)}", f"To: {', '.join(dice.choices(ADDRESSES, k=2))}"]
    fields += [
        f"Date: {dates.shaped(dice, moment, zone)}",
        f"Received: from a by b;\r\n {moment.text('+0200')}",
        "Message-ID: <1@a.example>",
        "X-Spam-Score: " + dice.choice(["5", "10.5", "-1", "high"]),
    ]
    fields += [f"{name.title()}: {dice.choice(ADDRESSES)}" for name in dice.sample(ADDRESS_FIELDS, 4)] + ["List-Id: News <sieve.lists.example>", "no field"]
    fields = [field for field in dice.sample(fields, len(fields)) if dice.random() < 0.7]
    end = dice.choice(["\r\n", "\n"])
    head = "".join(f"{field}{end}" for field in fields).encode()
    return head + (bodies.Maker(dice).entity() if dice.random() < 0.5 else dice.choice([b"", b"\r\n", b"\r\none\r\ntwo\r\n"]))
