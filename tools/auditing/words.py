"""The words of a term, and which of them it brings with it: parameters, what a pattern binds, what `let` names."""
import re

TOKEN = re.compile(r'--[^\n]*|⟦[^⟧]*⟧|"(?:\\.|[^"\\\n])*"|«[^»]*»|[(){}.;,@]|[^\s(){}.;,@"«»]+')
BRACKETS = {"(": ")", "{": "}", "[": "]"}
# Words that stand for no definition.
RESERVED = set("→ × λ ↦ = | : ∀ ¬ ⊥ _ Type as in where elim let record open use unfolding Unit tt absurd ] ∗ ↔ refl ∥ ∥₁ 𝓛".split())
NUMERAL = re.compile(r"[0-9]\w*$")


class Token:
    """A word with the parts of its path, a text in quotes, what is code in a term, a bracket or a mark; and where it stands."""

    def __init__(self, kind, parts, at):
        self.kind, self.parts, self.at = kind, parts, at

    def is_mark(self, *marks):
        """Whether it is one of these marks or words."""
        return self.kind in ("word", "mark") and len(self.parts) == 1 and self.parts[0] in marks

    def is_name(self):
        """Whether it is a word that may be bound."""
        return self.kind == "word" and len(self.parts) == 1 and not self.is_mark(":", "=", "→")


def tokens(text, start=0):
    """The tokens of a term, whose text begins at a place."""
    found, end, after_dot = [], -1, False
    for it in TOKEN.finditer(text):
        word, kind = it[0], "word"
        if word.startswith("--"):
            continue
        if word.startswith('"'):
            kind = "text"
        elif word in "(){}.;,@":
            kind = "mark"
        elif word.startswith("⟦"):
            kind = "code"
        if kind == "word" and after_dot and it.start() == end:
            found.pop()
            owner = found[-1]
            if owner.kind == "word":
                owner.parts.append(word)
            else:
                found.append(Token("field", [word], start + it.start()))
            after_dot, end = False, it.end()
            continue
        after_dot = word == "." and it.start() == end and bool(found) and (found[-1].kind in ("word", "field", "code") or found[-1].is_mark(")", "}"))
        found.append(Token(kind, [word.strip("«»")], start + it.start()))
        end = it.end()
    return found


def pieces(name):
    """The words by which a name is written: its own, and of an operator each word between its arguments."""
    return [name, *filter(None, name.split("◌"))] if "◌" in name else [name]


class Reader:
    """Reads a term, and keeps each word in it that isn't brought by the term itself, with its place."""

    def __init__(self, text, start, makes):
        """The text, where it begins, and what says whether a word is a constructor, which no pattern binds."""
        self.tokens, self.makes = tokens(text, start), makes
        self.used, self.fields, self.code = [], [], []

    def term(self, at, bound, ends=()):
        """Reads from a place to one of these ends, or to the end of the text. What a binder brings lasts to the end, or to what stands between
        parts. Gives the place of the end and what is bound there."""
        base, bound = set(bound), set(bound)
        while at < len(self.tokens):
            token = self.tokens[at]
            if token.is_mark(*ends):
                return at, bound
            if token.is_mark(",", ";", "|"):
                bound = set(base)
                at += 1
            else:
                at = self.step(at, bound)
        return at, bound

    def step(self, at, bound):
        """Reads one word, or what a bracket or a binder opens. Adds what is bound after it."""
        token = self.tokens[at]
        if token.is_mark("λ"):
            return self.pattern(at + 1, bound, (".",)) + 1
        if token.is_mark("let"):
            return self.let(at + 1, bound)
        if token.is_mark("record"):
            return self.record(at + 1, bound)
        if token.is_mark("["):
            return self.cases(at + 1, bound)
        if token.is_mark("(", "{"):
            return self.bracket(at, bound)
        if token.kind == "word":
            self.use(token, bound)
        elif token.kind == "field":
            self.fields.append((token.parts[0], token.at))
        elif token.kind == "code":
            self.code.append((token.parts[0], token.at))
        return at + 1

    def use(self, token, bound):
        """A word is used: a field of what is bound, or a name that is looked up."""
        head, *fields = token.parts
        if NUMERAL.match(head) or head in RESERVED and not fields:
            return
        if head in bound:
            self.fields += [(field, token.at) for field in fields]
        else:
            self.used.append((tuple(token.parts), token.at))

    def names_before(self, at, mark):
        """The words from a place on to this mark, if there are only words before it."""
        end = at
        while end < len(self.tokens) and self.tokens[end].is_name():
            end += 1
        is_there = end > at and end < len(self.tokens) and self.tokens[end].is_mark(mark)
        return [it.parts[0] for it in self.tokens[at:end]] if is_there else []

    def bracket(self, at, bound):
        """What stands in brackets: parameters with their type, which are bound after it, a named argument, or a term."""
        close = BRACKETS[self.tokens[at].parts[0]]
        names = self.names_before(at + 1, ":")
        if names:
            at, _ = self.term(at + 2 + len(names), bound, (close,))
            bound.update(names)
        elif close == "}" and self.names_before(at + 1, "="):
            at, _ = self.term(at + 3, bound, (close,))
        else:
            at, _ = self.term(at + 1, bound, (close,))
        return at + 1

    def record(self, at, bound):
        """A record, another with some fields changed, or a type of records."""
        while at < len(self.tokens) and not self.tokens[at].is_mark("{"):
            at = self.step(at, bound)
        at, inner = at + 1, set(bound)
        while at < len(self.tokens) and not self.tokens[at].is_mark("}"):
            names = self.names_before(at, ":")
            if self.names_before(at, "="):
                self.fields.append((self.tokens[at].parts[0], self.tokens[at].at))
                at += 2
            elif names:
                at += len(names) + 1
            at, _ = self.term(at, inner, (";", "}"))
            inner.update(names)
            at += at < len(self.tokens) and self.tokens[at].is_mark(";")
        return at + 1

    def cases(self, at, bound):
        """The cases of `elim`, each with a pattern, up to the bracket that closes them."""
        while at < len(self.tokens) and not self.tokens[at].is_mark("]"):
            inner = set(bound)
            at = self.pattern(at, inner, ("↦",)) + 1
            at, _ = self.term(at, inner, ("|", "]"))
            at += at < len(self.tokens) and self.tokens[at].is_mark("|")
        return at + 1

    def let(self, at, bound):
        """A name for a term, with its type where one is given."""
        inner = set(bound)
        at = self.pattern(at, inner, ("=", ":"))
        if self.tokens[at].is_mark(":"):
            at, _ = self.term(at + 1, bound, ("=",))
        at, _ = self.term(at + 1, bound, ("in",))
        bound.update(inner)
        return at + 1

    def pattern(self, at, bound, ends):
        """Reads a pattern up to one of these ends, and binds what it binds."""
        depth, names = 0, set()
        while at < len(self.tokens) and not (depth == 0 and self.tokens[at].is_mark(*ends)):
            token = self.tokens[at]
            depth += token.is_mark("(", "{") - token.is_mark(")", "}")
            if token.is_mark("{", ";") and self.names_before(at + 1, "="):
                at += 1
            elif token.is_mark("(") and self.names_before(at + 1, ":"):
                typed = self.names_before(at + 1, ":")
                at, _ = self.term(at + 2 + len(typed), bound, (")",))
                names.update(typed)
                continue
            elif token.kind == "word":
                self.bind(token, names)
            at += 1
        bound.update(names)
        return at

    def bind(self, token, names):
        """A word of a pattern: a constructor, or what it binds."""
        head = token.parts[0]
        if len(token.parts) > 1 or self.makes(head):
            self.used.append((tuple(token.parts), token.at))
        elif not (NUMERAL.match(head) or head in RESERVED):
            names.add(head)
