"""The faults of scripts: what each means."""

from __future__ import annotations

import difflib
import functools
from typing import NamedTuple, Optional, Tuple

from .capabilities import NEEDS, REGISTERED
from .mains import Script
from .program import Fault
from .sieve_text import line_at, line_requiring, required, tokens
from .texts import mark_of
from .words import quoted

# What each fault of a script means, and each error of a run that `lint` looks for.
SENTENCES = {
    "syntax": "What stands here can't follow what stands before it, or the text ends too early.",
    "require-place": "A `require` has to stand before all other commands.",
    "unknown-capability": "There is no such extension here.",
    "unknown-command": "There is no such command or test.",
    "not-required": "What stands here needs an extension that the script doesn't require.",
    "else-place": "In front of this branch stands no `if` or `elsif`.",
    "bad-tag": "This tag isn't taken here, or not in this place, or not with another one.",
    "bad-arguments": "The arguments, the tests or the block aren't those that are taken here.",
    "unknown-comparator": "There is no such comparator.",
    "bad-variable-name": "No variable can have this name.",
    "global-after-set": "The script has set this variable as its own before it declares it global.",
    "bad-namespace": "There is no such namespace of variables.",
    "match-index": "There is no match variable past `${99}`.",
    "number-too-large": "The number doesn't fit in 64 bits.",
    "bad-envelope-part": "An envelope has no such part.",
    "not-address-header": "An `address` test can't look at this field.",
    "too-many-variables": "The script sets more than 128 variables of its own.",
    "bad-character": "There is no such character.",
    "bad-relation": "There is no such relation.",
    "unfit-comparator": "Numbers have no parts that `:contains` or `:matches` could find.",
    "bad-date-part": "There is no such part of a date.",
    "missing-script": "There is no script of this name.",
    "invalid-script": "The script of this name has a fault.",
    "recursive-include": "The script of this name runs already.",
    "bad-address": "This isn't one address.",
    "bad-mailbox": "A mailbox can't have this name.",
}
LACKING = "unknown-capability"
# The faults of what is used of a capability that isn't there, and the kind of token that each is at.
USED = {"bad-tag": "tag", "unknown-command": "word", "unknown-comparator": "string", "bad-namespace": "string"}
NAMESPACE = b"${env."


class Use(NamedTuple):
    """A word of a script, and the capability that it needs."""

    word: bytes
    name: bytes

    def told(self) -> str:
        """It in words."""
        return f"{self.word.decode()} needs {self.name.decode()}"


def sentence_of(script: Script, line: int, word: str) -> str:
    """What a fault of a script means."""
    mark = mark_of(script.text)
    if (line, word) == (1, "syntax") and mark:
        return f"The file begins with {mark.advice()}."
    if word == LACKING:
        strange = [it for it in strangers(script.text) if line_requiring(script.text, it) == line]
        if strange:
            return "; ".join(map(no_such, strange))
    used = use_at(script.text, (line, word))
    if used and used.name not in required(script.text)[1]:
        return f"{SENTENCES[word]} {used.told()}, which the script doesn't require."
    return SENTENCES.get(word, "a fault")


# Many users have the same script.
@functools.lru_cache(maxsize=1024)
def strangers(text: bytes) -> Tuple[bytes, ...]:
    """What a script requires that isn't registered."""
    return tuple(name for name in dict.fromkeys(required(text)[1]) if name not in REGISTERED)


def no_such(name: bytes) -> str:
    """What is said of a capability that there isn't, and which may be meant."""
    near = difflib.get_close_matches(name.decode("latin-1").lower(), [it.decode() for it in sorted(REGISTERED)], 1)
    meant = f"; did you mean {near[0]}?" if near else ""
    return f"{quoted(name)[1:-1]}: no such extension{meant}"


def use_at(text: bytes, fault: Fault) -> Optional[Use]:
    """What is used at a fault of what a capability gives: one that the script requires, or else the first that gives it."""
    names = required(text)[1]
    for token in tokens(text):
        word = NAMESPACE if NAMESPACE in token.octets.lower() else token.octets
        if line_at(text, token.start) == fault[0] and USED.get(fault[1]) == token.kind and word in NEEDS:
            return Use(word, next((it for it in NEEDS[word] if it in names), NEEDS[word][0]))
    return None
