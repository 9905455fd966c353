"""How a tool takes its words: as the usage says that stands in its own text.

A text is a sentence, the usage, which has a line for each form of the words, and whatever more there is to say. In a form `[..]` may be left out,
`WORD..` may be several, and in `[--option VALUE]` the words after the option are its values, whatever they begin with. `--help` prints the text,
and after `--` no word is an option. Words of no form end the tool before it does anything, with a line on standard error and status 2.
"""

from __future__ import annotations

import os
import re
import signal
import sys
from typing import Dict, List, NamedTuple, NoReturn

OPTION = re.compile(r"(\[?)(--[a-z-]+)((?: [A-Z]+)*)\]? ?")
WORD = re.compile(r"(\[?)[A-Z]+(\.\.)?")


class Given(NamedTuple):
    """The options of a command line, each with its values, and the other words."""

    options: Dict[str, List[str]]
    words: List[str]


class Form:
    """A line of a usage: the options, each with how many values it has, those that aren't left out, and how many other words there are."""

    def __init__(self, line: str) -> None:
        line = line.partition(" | ")[0].strip().partition(" ")[2]
        options, self.words = OPTION.findall(line), OPTION.sub("", line)
        self.options = {name: len(values.split()) for _, name, values in options}
        self.needed = {name for bracket, name, _ in options if not bracket}
        words = WORD.findall(self.words)
        self.least = sum(not bracket for bracket, _ in words)
        self.most = sys.maxsize if any(several for _, several in words) else len(words)


class Usage:
    """What a tool takes."""

    def __init__(self, text: str) -> None:
        lines = text.split("\n\n")[1].splitlines()
        self.text, self.tool, self.forms = text.strip(), lines[0].split()[0], [Form(line) for line in lines]

    def refuse(self, sentence: str) -> NoReturn:
        """Ends the tool with a sentence."""
        print(f"{self.tool.rpartition('/')[2]}: {sentence}; see {self.tool} --help", file=sys.stderr)
        sys.exit(2)

    def help(self) -> NoReturn:
        """Prints the text. Where nobody reads on, the end is a quiet one."""
        signal.signal(signal.SIGPIPE, signal.SIG_DFL)
        print(self.text)
        sys.exit()

    def read(self, rest: List[str]) -> Given:
        """The options and the words of a command line; or the text, where that is asked for."""
        given, values = Given({}, []), {name: count for form in self.forms for name, count in form.options.items()}
        while rest:
            word, *rest = rest
            if word in ("-h", "--help"):
                self.help()
            elif word == "--":
                given.words.extend(rest)
                return given
            elif not word.startswith("-"):
                given.words.append(word)
            elif word not in values:
                self.refuse(f"there is no option {str(os.fsencode(word))[2:-1]}")
            elif word in given.options:
                self.refuse(f"{word} stands twice")
            elif len(rest) < values[word]:
                self.refuse(f"too few words after {word}")
            else:
                given.options[word], rest = rest[: values[word]], rest[values[word] :]
        return given

    def check(self, given: Given) -> None:
        """Refuses what is of no form."""
        forms = [it for it in self.forms if it.needed <= given.options.keys() <= it.options.keys()]
        count = len(given.words)
        if not forms:
            self.refuse(f"{' and '.join(given.options)} don't go together")
        if not any(it.least <= count <= it.most for it in forms):
            amount = "few" if all(count < it.least for it in forms) else "many"
            self.refuse(f"too {amount} words: it takes {' or '.join(it.words or 'none' for it in forms)}")


def given(text: str) -> Given:
    """The words of this run, for a tool that has this text."""
    usage = Usage(text)
    found = usage.read(sys.argv[1:])
    usage.check(found)
    return found
