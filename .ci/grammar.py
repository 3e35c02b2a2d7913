"""Grammars in ABNF (RFC 5234, with the byte-exact strings of RFC 7405), as regular expressions over bytes.

A grammar without a rule that leads back to itself is regular, so each of its rules is one regular expression. A rule that
isn't there, one that is there twice, one that leads back to itself and a text that is no ABNF are refused by their names.
Comments and values in prose are refused too: a grammar here says all by its rules.
"""

import re
from typing import Dict, Iterator, List, Pattern, Set, Tuple

CORE = """
ALPHA = %x41-5A / %x61-7A
BIT = "0" / "1"
CR = %x0D
CRLF = CR LF
DIGIT = %x30-39
DQUOTE = %x22
HEXDIG = DIGIT / "A" / "B" / "C" / "D" / "E" / "F"
HTAB = %x09
LF = %x0A
OCTET = %x00-FF
SP = %x20
VCHAR = %x21-7E
WSP = SP / HTAB
"""

TOKEN = re.compile(
    r"""(?P<blank>[ \t]+)
      | (?P<name>[A-Za-z][A-Za-z0-9-]*)
      | (?P<text>%[sSiI]"[\x20\x21\x23-\x7e]*"|"[\x20\x21\x23-\x7e]*")
      | (?P<number>%[xX][0-9A-Fa-f]+(?:-[0-9A-Fa-f]+|(?:\.[0-9A-Fa-f]+)*)
                 | %[dD][0-9]+(?:-[0-9]+|(?:\.[0-9]+)*)
                 | %[bB][01]+(?:-[01]+|(?:\.[01]+)*))
      | (?P<repeat>[0-9]*\*[0-9]*|[0-9]+)
      | (?P<mark>[/()\[\]])""",
    re.VERBOSE,
)

Token = Tuple[str, str]


class NoGrammar(Exception):
    """The text is no grammar, or not one that is a regular expression."""


def tokens_of(text: str) -> List[Token]:
    """The tokens of the elements of a rule, each with its kind; blanks fall out."""
    found: List[Token] = []
    at = 0
    while at < len(text):
        match = TOKEN.match(text, at)
        if match is None:
            raise NoGrammar(f"no token of ABNF at {text[at:at + 20]!r}")
        if match.lastgroup != "blank":
            found.append((str(match.lastgroup), match[0]))
        at = match.end()
    return found


def text_pattern(token: str) -> bytes:
    """A string: as it stands with `%s` in front, and else in either case of its letters."""
    inner = token[token.index('"') + 1 : -1].encode()
    if token[:2].lower() == "%s":
        return re.escape(inner)
    return b"(?i:" + re.escape(inner) + b")"


def number_pattern(token: str) -> bytes:
    """One byte by its number, bytes one after the other, or a range of bytes."""
    base = {"x": 16, "d": 10, "b": 2}[token[1].lower()]
    is_range = "-" in token
    numbers = [int(part, base) for part in token[2:].replace("-", ".").split(".")]
    if max(numbers) > 255:
        raise NoGrammar(f"{token} is no byte")
    if not is_range:
        return b"".join(b"\\x%02x" % number for number in numbers)
    if numbers[0] > numbers[1]:
        raise NoGrammar(f"{token} goes down")
    return b"[\\x%02x-\\x%02x]" % (numbers[0], numbers[1])


def repeated(pattern: bytes, token: str) -> bytes:
    """So many of a pattern: `2`, `*`, `1*`, `*3` or `1*3`."""
    least, star, most = token.partition("*")
    if not star:
        return pattern + b"{%d}" % int(least)
    if most and int(least or 0) > int(most):
        raise NoGrammar(f"{token} goes down")
    return pattern + b"{%d,%s}" % (int(least or 0), most.encode())


class Grammar:
    """The rules of a grammar by their names, in either case of letters."""

    def __init__(self, text: str) -> None:
        self.elements: Dict[str, List[Token]] = {}
        self.patterns: Dict[str, bytes] = {}
        self.compiled: Dict[str, Pattern[bytes]] = {}
        self.take(CORE)
        self.core = list(self.elements)
        self.take(text)
        for name in self.elements:
            self.pattern_of(name, [])

    def take(self, text: str) -> None:
        """Takes the rules of a text: each begins a line, and goes on in the lines behind it that begin with a blank."""
        for rule in re.split(r"\n(?![ \t\n])", text.strip("\n")):
            match = re.match(r"([A-Za-z][A-Za-z0-9-]*)[ \t]*=(?!/)", rule)
            if match is None:
                raise NoGrammar(f"no rule begins with {rule[:40]!r}")
            name = match[1].lower()
            if name in self.elements:
                raise NoGrammar(f"{name} is there twice")
            self.elements[name] = tokens_of(" ".join(rule[match.end() :].split("\n")))

    def rules(self) -> List[str]:
        """The names of the rules, without those that each grammar has."""
        return [name for name in self.elements if name not in self.core]

    def names_in(self, name: str) -> List[str]:
        """The rules that a rule names, as they stand in it."""
        return [token.lower() for kind, token in self.elements[name] if kind == "name"]

    def below(self, name: str) -> Iterator[str]:
        """A rule, and all those that it is made of, each once."""
        seen: Set[str] = set()
        left = [name]
        while left:
            here = left.pop()
            if here in seen:
                continue
            seen.add(here)
            yield here
            left.extend(reversed(self.names_in(here)))

    def words_of(self, name: str) -> Set[str]:
        """The strings of a rule and of those that it is made of."""
        return {
            token[token.index('"') + 1 : -1] for rule in self.below(name) for kind, token in self.elements[rule] if kind == "text"
        }

    def matches(self, name: str, found: bytes) -> bool:
        """Whether the bytes, all of them, are what a rule says."""
        name = name.lower()
        if name not in self.compiled:
            self.compiled[name] = re.compile(self.pattern_of(name, []))
        return self.compiled[name].fullmatch(found) is not None

    def pattern_of(self, name: str, above: List[str]) -> bytes:
        """The regular expression of a rule that those above it lead to."""
        if name in above:
            raise NoGrammar(f"{name} leads back to itself")
        if name not in self.elements:
            raise NoGrammar(f"there is no rule {name}")
        if name not in self.patterns:
            pattern, at = self.alternation(self.elements[name], 0, above + [name])
            if at < len(self.elements[name]):
                raise NoGrammar(f"{name} goes on with {self.elements[name][at][1]!r}")
            self.patterns[name] = pattern
        return self.patterns[name]

    def alternation(self, tokens: List[Token], at: int, above: List[str]) -> Tuple[bytes, int]:
        """What begins at a token and is one or the other, and where it ends."""
        sides: List[bytes] = []
        while True:
            side, at = self.concatenation(tokens, at, above)
            sides.append(side)
            if at == len(tokens) or tokens[at] != ("mark", "/"):
                return b"(?:" + b"|".join(sides) + b")", at
            at += 1

    def concatenation(self, tokens: List[Token], at: int, above: List[str]) -> Tuple[bytes, int]:
        """What begins at a token and stands one behind the other, and where it ends."""
        parts: List[bytes] = []
        while at < len(tokens) and tokens[at] not in (("mark", "/"), ("mark", ")"), ("mark", "]")):
            count = ""
            if tokens[at][0] == "repeat":
                count = tokens[at][1]
                at += 1
            part, at = self.element(tokens, at, above)
            parts.append(repeated(part, count) if count else part)
        if not parts:
            raise NoGrammar(f"{above[-1]} has an empty side")
        return b"".join(parts), at

    def element(self, tokens: List[Token], at: int, above: List[str]) -> Tuple[bytes, int]:
        """The element that begins at a token, and where it ends."""
        if at == len(tokens):
            raise NoGrammar(f"{above[-1]} ends behind a count")
        kind, token = tokens[at]
        if kind == "name":
            return self.pattern_of(token.lower(), above), at + 1
        if kind == "text":
            return b"(?:" + text_pattern(token) + b")", at + 1
        if kind == "number":
            return b"(?:" + number_pattern(token) + b")", at + 1
        if token not in ("(", "["):
            raise NoGrammar(f"{above[-1]} has {token!r} in the place of an element")
        inner, at = self.alternation(tokens, at + 1, above)
        if at == len(tokens) or tokens[at] != ("mark", ")" if token == "(" else "]"):
            raise NoGrammar(f"{above[-1]} has no end of {token!r}")
        return inner + (b"?" if token == "[" else b""), at + 1
