"""The words of scripts: each command and test with its tags and arguments, where it is defined, and the capabilities that it needs."""

from __future__ import annotations

from typing import Dict, Iterator, NamedTuple, Optional, Tuple

# How a command or a test takes tests.
ONE, MANY = "one", "many"
INNER = {ONE: "test", MANY: "(test, ..)"}


class Tag(NamedTuple):
    """A tag: its name, where it is defined, its purpose, the argument that it takes, if it takes one, and the capability that it needs
    beside those of its command or test."""

    name: str
    source: str
    says: str
    takes: str = ""
    needs: str = ""

    def usage(self) -> str:
        """It as it is written."""
        return f"{self.name} {self.takes}" if self.takes else self.name


# Tags of which one at most is given.
Choice = Tuple[Tag, ...]


class Word(NamedTuple):
    """A command or a test: its name, where it is defined, its purpose, its arguments, the capabilities that it needs, its tags, an argument
    that may stand before the others and needs `variables`, how it takes tests, and whether it has a block."""

    name: str
    source: str
    says: str
    arguments: Tuple[str, ...] = ()
    needs: Tuple[str, ...] = ()
    choices: Tuple[Choice, ...] = ()
    front: str = ""
    inner: str = ""
    block: bool = False

    def tags(self) -> Iterator[Tag]:
        """All its tags."""
        return (tag for choice in self.choices for tag in choice)

    def tag(self, name: str) -> Optional[Tag]:
        """Its tag of this name, if it has one."""
        return next((tag for tag in self.tags() if tag.name == name), None)

    def usage(self) -> str:
        """It as it is written."""
        parts = [self.name, *(f"[{' | '.join(tag.usage() for tag in choice)}]" for choice in self.choices)]
        parts += [f"[{self.front}]", *self.arguments] if self.front else self.arguments
        parts += [INNER[self.inner]] if self.inner else []
        return " ".join([*parts, "{ .. }"] if self.block else parts)


VARIABLES, FLAGGED, INCLUDED = ("variables",), ("imap4flags",), ("include",)
MATCH_TYPE, ADDRESS_PART, CASE = "RFC 5228, section 2.7.1", "RFC 5228, section 2.7.4", "RFC 5229, section 4.1.3"
INCLUDING, ONE_ZONE = "RFC 6609, section 3.2", "RFC 5260, section 4.1"
UNIQUE, SINCE = "RFC 7352, section 3.1", "RFC 7352, section 3.3"

COMPARATOR = (Tag(":comparator", "RFC 5228, section 2.7.3", "Names the comparator.", "comparator"),)
MATCH = (
    Tag(":is", MATCH_TYPE, "The value is the key. This is the default."),
    Tag(":contains", MATCH_TYPE, "The key is a part of the value."),
    Tag(":matches", MATCH_TYPE, "The value fits the key, in which * stands for any text and ? for one character."),
    Tag(":value", "RFC 5231, section 4.1", "The value has this relation to the key.", "relation", "relational"),
    Tag(
        ":count",
        "RFC 5231, section 4.2",
        "The number of values has this relation to the key.",
        "relation",
        "relational",
    ),
)
PART = (
    Tag(":all", ADDRESS_PART, "The whole address. This is the default."),
    Tag(":localpart", ADDRESS_PART, "The part before the @."),
    Tag(":domain", ADDRESS_PART, "The part after the @."),
    Tag(":user", "RFC 5233, section 4", "The local part up to its first +.", "", "subaddress"),
    Tag(":detail", "RFC 5233, section 4", "The local part after its first +.", "", "subaddress"),
)
FLAGS = (Tag(":flags", "RFC 5232, section 5", "The flags with which the message is stored.", "flags", "imap4flags"),)
COPY = (Tag(":copy", "RFC 3894, section 3", "Leaves the implicit keep as it is.", "", "copy"),)
CREATE = (Tag(":create", "RFC 5490, section 3.2", "Makes the mailbox if it isn't there.", "", "mailbox"),)
USE = "Stores into the mailbox of this use, if there is one."
SPECIAL_USE = (Tag(":specialuse", "RFC 8579, section 4", USE, "use", "special-use"),)
BOUND = (
    Tag(":over", "RFC 5228, section 5.9", "The message is larger than the limit."),
    Tag(":under", "RFC 5228, section 5.9", "The message is smaller than the limit."),
)
MODIFIERS = (
    (
        Tag(":lower", CASE, "Makes all letters small."),
        Tag(":upper", CASE, "Makes all letters large."),
    ),
    (
        Tag(":lowerfirst", CASE, "Makes the first letter small."),
        Tag(":upperfirst", CASE, "Makes the first letter large."),
    ),
    (Tag(":quotewildcard", "RFC 5229, section 4.1.2", "Puts a backslash before each *, ? and backslash."),),
    (Tag(":length", "RFC 5229, section 4.1.1", "Takes the number of characters in place of the text."),),
)
ZONE = Tag(":zone", ONE_ZONE, "Shows the date in this zone.", "zone")
ORIGINAL_ZONE = Tag(":originalzone", ONE_ZONE, "Shows the date in its own zone.")
INCLUDE = (
    (
        Tag(":personal", INCLUDING, "Looks among the scripts of the user. This is the default."),
        Tag(":global", INCLUDING, "Looks among the scripts of the site."),
    ),
    (Tag(":once", INCLUDING, "Skips a script that the run has entered before."),),
    (Tag(":optional", INCLUDING, "Passes over a script that isn't there."),),
)
VACATION = (
    (Tag(":days", "RFC 5230, section 4.1", "A sender is answered once in so many days.", "days"),),
    (Tag(":subject", "RFC 5230, section 4.3", "The subject of the answer.", "subject"),),
    (Tag(":from", "RFC 5230, section 4.3", "The address that the answer is from.", "address"),),
    (Tag(":addresses", "RFC 5230, section 4.5", "Further addresses of the user.", "addresses"),),
    (Tag(":mime", "RFC 5230, section 4.4", "The reason is an entity of MIME with its fields."),),
    (Tag(":handle", "RFC 5230, section 4.2", "Answers with the same handle count as the same.", "handle"),),
)
DUPLICATE = (
    (Tag(":handle", "RFC 7352, section 3.2", "Messages are compared with those of the same handle.", "handle"),),
    (
        Tag(":header", UNIQUE, "Compares messages by this field in place of Message-ID.", "field"),
        Tag(":uniqueid", UNIQUE, "Compares messages by this text in place of Message-ID.", "text"),
    ),
    (Tag(":seconds", SINCE, "Remembers a message for so many seconds.", "seconds"),),
    (Tag(":last", SINCE, "Counts the seconds from the last message of this kind."),),
)
BODY = (
    Tag(":raw", "RFC 5173, section 5.1", "Compares the body as it is sent."),
    Tag(":content", "RFC 5173, section 5.2", "Compares the parts of these types.", "types"),
    Tag(":text", "RFC 5173, section 5.3", "Compares the parts that are text. This is the default."),
)

COMMANDS = (
    Word("require", "RFC 5228, section 3.2", "Names the extensions that the script uses.", ("capabilities",)),
    Word("if", "RFC 5228, section 3.1", "Runs its block if its test holds.", inner=ONE, block=True),
    Word("elsif", "RFC 5228, section 3.1", "The same, if no branch before it ran.", inner=ONE, block=True),
    Word("else", "RFC 5228, section 3.1", "Runs its block if no branch before it ran.", block=True),
    Word("stop", "RFC 5228, section 3.3", "Ends the run."),
    Word("keep", "RFC 5228, section 4.3", "Stores the message in the user's main mailbox.", choices=(FLAGS,)),
    Word(
        "fileinto",
        "RFC 5228, section 4.1",
        "Stores the message in a mailbox.",
        ("mailbox",),
        ("fileinto",),
        (FLAGS, COPY, CREATE, SPECIAL_USE),
    ),
    Word("redirect", "RFC 5228, section 4.2", "Sends the message on to an address.", ("address",), choices=(COPY,)),
    Word("discard", "RFC 5228, section 4.4", "Drops the message, if nothing else keeps it."),
    Word("vacation", "RFC 5230, section 4", "Answers the sender.", ("reason",), ("vacation",), VACATION),
    Word("reject", "RFC 5429, section 2.2", "Refuses the message, and says why.", ("reason",), ("reject",)),
    Word("ereject", "RFC 5429, section 2.1", "The same, as early as it can.", ("reason",), ("ereject",)),
    Word("set", "RFC 5229, section 4", "Gives a variable a value.", ("variable", "value"), VARIABLES, MODIFIERS),
    Word("setflag", "RFC 5232, section 3.1", "Sets these flags, and no others.", ("flags",), FLAGGED, front="variable"),
    Word("addflag", "RFC 5232, section 3.2", "Adds these flags.", ("flags",), FLAGGED, front="variable"),
    Word("removeflag", "RFC 5232, section 3.3", "Takes these flags away.", ("flags",), FLAGGED, front="variable"),
    Word("include", INCLUDING, "Runs another script.", ("script",), INCLUDED, INCLUDE),
    Word("return", "RFC 6609, section 3.3", "Ends this script, and goes on in the one that includes it.", (), INCLUDED),
    Word(
        "global",
        "RFC 6609, section 3.4.1",
        "Declares variables that scripts share.",
        ("variables",),
        (*INCLUDED, *VARIABLES),
    ),
)
TESTS = (
    Word(
        "header",
        "RFC 5228, section 5.7",
        "Compares fields with keys.",
        ("fields", "keys"),
        choices=(COMPARATOR, MATCH),
    ),
    Word(
        "address",
        "RFC 5228, section 5.1",
        "Compares the addresses in fields with keys.",
        ("fields", "keys"),
        choices=(COMPARATOR, MATCH, PART),
    ),
    Word(
        "envelope",
        "RFC 5228, section 5.4",
        "Compares addresses of the envelope with keys.",
        ("parts", "keys"),
        ("envelope",),
        (COMPARATOR, MATCH, PART),
    ),
    Word("exists", "RFC 5228, section 5.5", "Holds if all these fields are there.", ("fields",)),
    Word("size", "RFC 5228, section 5.9", "Compares the message's size with a limit.", ("limit",), choices=(BOUND,)),
    Word("allof", "RFC 5228, section 5.2", "Holds if all its tests hold.", inner=MANY),
    Word("anyof", "RFC 5228, section 5.3", "Holds if one of its tests holds.", inner=MANY),
    Word("not", "RFC 5228, section 5.8", "Holds if its test doesn't.", inner=ONE),
    Word("true", "RFC 5228, section 5.10", "Holds."),
    Word("false", "RFC 5228, section 5.6", "Doesn't hold."),
    Word(
        "string",
        "RFC 5229, section 5",
        "Compares texts with keys.",
        ("values", "keys"),
        VARIABLES,
        (COMPARATOR, MATCH),
    ),
    Word(
        "hasflag",
        "RFC 5232, section 4",
        "Compares flags with keys.",
        ("keys",),
        FLAGGED,
        (COMPARATOR, MATCH),
        "variables",
    ),
    Word("mailboxexists", "RFC 5490, section 3.1", "Holds if all these mailboxes are there.", ("names",), ("mailbox",)),
    Word("duplicate", "RFC 7352, section 3", "Holds if the message came before.", (), ("duplicate",), DUPLICATE),
    Word(
        "date",
        "RFC 5260, section 4",
        "Compares a part of a field's date with keys.",
        ("field", "part", "keys"),
        ("date",),
        ((ZONE, ORIGINAL_ZONE), COMPARATOR, MATCH),
    ),
    Word(
        "currentdate",
        "RFC 5260, section 5",
        "Compares a part of the current date with keys.",
        ("part", "keys"),
        ("date",),
        ((ZONE,), COMPARATOR, MATCH),
    ),
    Word(
        "body", "RFC 5173, section 4", "Compares the body with keys.", ("keys",), ("body",), (BODY, COMPARATOR, MATCH)
    ),
)
WORDS: Dict[str, Word] = {word.name: word for word in (*COMMANDS, *TESTS)}
IS_TEST = frozenset(word.name for word in TESTS)


class Named(NamedTuple):
    """Where a capability or a comparator is defined, and its purpose."""

    source: str
    says: str


COMPARATORS = {
    "i;octet": Named("RFC 4790, section 9.3", "Compares octets."),
    "i;ascii-casemap": Named(
        "RFC 4790, section 9.2", "Takes small and large letters of ASCII as equal. This is the default."
    ),
    "i;ascii-numeric": Named("RFC 4790, section 9.1", "Compares the numbers with which texts begin."),
}
# Comparators that no script has to require.
PLAIN_COMPARATORS = ("i;octet", "i;ascii-casemap")
CAPABILITIES: Dict[str, Named] = {
    "body": Named("RFC 5173", "The test body."),
    "copy": Named("RFC 3894", "The tag :copy of fileinto and redirect."),
    "date": Named("RFC 5260", "The tests date and currentdate."),
    "duplicate": Named("RFC 7352", "The test duplicate."),
    "encoded-character": Named("RFC 5228, section 2.4.2.4", "${hex:..} and ${unicode:..} in strings."),
    "envelope": Named("RFC 5228, section 5.4", "The test envelope."),
    "ereject": Named("RFC 5429, section 2.1", "The command ereject."),
    "fileinto": Named("RFC 5228, section 4.1", "The command fileinto."),
    "imap4flags": Named(
        "RFC 5232", "The commands setflag, addflag and removeflag, the test hasflag, and the tag :flags."
    ),
    "include": Named("RFC 6609", "The commands include, return and global."),
    "mailbox": Named("RFC 5490, section 3", "The test mailboxexists, and the tag :create of fileinto."),
    "reject": Named("RFC 5429, section 2.2", "The command reject."),
    "relational": Named("RFC 5231", "The match types :value and :count."),
    "special-use": Named("RFC 8579", "The tag :specialuse of fileinto."),
    "subaddress": Named("RFC 5233", "The address parts :user and :detail."),
    "vacation": Named("RFC 5230", "The command vacation."),
    "variables": Named("RFC 5229", "Variables, the command set, and the test string."),
    **{f"comparator-{name}": named for name, named in COMPARATORS.items()},
}
