"""The texts that zincstoat prints, read line by line: rows, and the lines that are no rows.

Both companions stand on this file. It reads `show`, `history`, `carve`, `timeline` and `map` from a stream, a chunk at a
time, and refuses each line that the program doesn't print. Of evidence nothing is read here but the encoding in a header.

A row is handed on as it was printed: its place in the text, its fields, and its values with their marks. What a value is
tells `decoded`, by the kind that stands for it in the row's `kinds`, a letter a value:

    i integer   t text   n NULL   r real   b blob
    m missing: the record doesn't have the column (`-`)
    l lost: the value was overwritten (`?`)
    p part: the value isn't wholly local (`...`)

Within a chunk the escapes of a backslash and of an apostrophe are one character each, BACKSLASH and APOSTROPHE, which
the program prints nowhere by themselves. So a text ends at the next apostrophe, and all of it is found by plain searches.
"""

from __future__ import annotations

import re
import struct
from dataclasses import dataclass
from typing import Dict, Iterator, List, Match, Optional, Pattern, Protocol, Sequence, Tuple, Union

BACKSLASH = "\0"
APOSTROPHE = "\1"

ENCODINGS = ("utf-8", "utf-16le", "utf-16be")

# How many bytes are asked for at once: a pipe gives fewer.
CHUNK = 1 << 18

# A row of at most so many values is read by one pattern of its own, which is kept.
PATTERNED = 64

# Line number; the fields and values as they are printed, "" for a field that isn't there; the kinds of the values; and
# the whole line.
Row = Tuple[int, Tuple[str, ...], str, str]

Value = Union[None, int, float, str, bytes]


class Source(Protocol):
    """A stream of bytes that gives what is there, as a pipe does."""

    def read1(self, size: int) -> bytes:
        """At least one byte and at most so many, or none at the end."""


class TextError(Exception):
    """The text isn't one that the program prints."""


class BadLine(TextError):
    """A line that the program doesn't print, or not there."""

    def __init__(self, number: int, line: str, why: str):
        super().__init__(f"line {number} {why}: {shown(line)}")
        self.number = number


class CutText(TextError):
    """The text ends before its last line."""


class Refused(TextError):
    """The program printed a refusal, or its usage, and no text."""

    def __init__(self, line: str):
        super().__init__(f"the program printed {shown(line)}")


class BadValue(ValueError):
    """A value that the program doesn't print."""


def original(text: str) -> str:
    """A piece of a chunk as it was printed."""
    return text.replace(BACKSLASH, "\\\\").replace(APOSTROPHE, "\\'")


def marked(text: str) -> str:
    """A printed text with the escapes of a backslash and of an apostrophe as one character each."""
    return text.replace("\\\\", BACKSLASH).replace("\\'", APOSTROPHE)


def shown(line: str) -> str:
    """A line for a message: what is no printable ASCII is escaped, and what is long is cut."""
    whole = original(line)
    return ascii(whole) if len(whole) <= 160 else f"{ascii(whole[:160])} and {len(whole) - 160} characters more"


@dataclass(frozen=True)
class Aside:
    """A line that is no row: the columns, a fault, a count."""

    line: int
    kind: str
    text: str
    moment: Optional[str] = None
    page: Optional[int] = None
    cell: Optional[int] = None


@dataclass(frozen=True)
class Command:
    """The lines of one command's text.

    The names of a row's fields stand in `fields`, in the order of the groups of `front`; `behind` are those after the
    values, of `back`. `opening` and `closing` are the kinds of the lines that come first and last.
    """

    name: str
    item: str
    fields: Tuple[str, ...]
    front: str
    asides: Dict[str, Pattern[str]]
    opening: Tuple[str, ...] = ()
    closing: Optional[str] = None
    has_values: bool = False
    behind: Tuple[str, ...] = ()
    back: str = ""


NUMBER = "([0-9]{1,18})"
MOMENT = "(?P<moment>journal|[0-9]+)"
ROWID = "(-?[0-9]{1,19}|-)"
TEXT = "'[^']*'"
FAULT = (
    "fault (?:absent|doubleclaim|badnode|badarray|otherkind|badcell|shortchain|headersize|unusedtype|bodylength)"
    " page (?P<page>[0-9]+)(?: cell (?P<cell>[0-9]+))?"
)
COUNT = "rows (?P<rows>[0-9]+) faults (?P<faults>[0-9]+)"
PLAIN_LABELS = (
    "dbheader|lockpage|reserved|nodeheader|pointers|entries|trunkhead|link|body|gap|fragment|maprest|trunkrest|freeleaf"
    "|unreached|tail|badhead|absent|doubleclaim|badnode|badarray|badtrunk|behind|longchain|overlap"
)


def patterns(**sources: str) -> Dict[str, Pattern[str]]:
    """The kinds of lines that are no rows, with what such a line is."""
    return {kind: re.compile(source) for kind, source in sources.items()}


COMMANDS = {
    command.name: command
    for command in (
        Command(
            name="show",
            item="rows",
            fields=("rowid",),
            front=f"row {ROWID}",
            asides=patterns(columns=f"columns(?: unknown|(?: {TEXT})*)", fault=FAULT, count=COUNT),
            opening=("columns",),
            closing="count",
            has_values=True,
        ),
        Command(
            name="history",
            item="rows",
            fields=("moment", "rowid"),
            front=f"(journal|[0-9]+) row {ROWID}",
            asides=patterns(
                fault=f"{MOMENT} {FAULT}",
                count=f"{MOMENT} {COUNT}",
                lack=f"{MOMENT} (?:no table|no tree|unreadable)",
            ),
            has_values=True,
        ),
        Command(
            name="carve",
            item="candidates",
            fields=("part", "offset", "length", "form", "page", "class", "rowid"),
            front=f"(database|wal|journal) {NUMBER} {NUMBER} (full|tail[0-8]|types[0-9]+|lost[0-9]+a?) page {NUMBER}"
            r" (file|committed|pending|foreign|broken|good|bad|after|unchecked) rowid (\?|-?[0-9]{1,19})",
            asides=patterns(count="candidates (?P<rows>[0-9]+)(?: completed [0-9]+)?"),
            closing="count",
            has_values=True,
            behind=("overflow",),
            back=f"(?: overflow {NUMBER}(?: complete)?)?",
        ),
        Command(
            name="timeline",
            item="moments",
            fields=("moment", "frame", "pages", "held", "uncertain"),
            front=f"(journal|[0-9]+)(?: frame {NUMBER})? pages {NUMBER} held {NUMBER} uncertain {NUMBER}",
            asides=patterns(
                database="database pagesize [0-9]+ usable [0-9]+ pages [0-9]+",
                wal="wal [a-z]+ frames [0-9]+ committed (?P<committed>[0-9]+) pending [0-9]+ foreign [0-9]+ broken [0-9]+",
                journal="journal [a-z]+ records [0-9]+ good [0-9]+",
            ),
            opening=("database", "wal", "journal"),
        ),
        Command(
            name="map",
            item="runs",
            fields=("page", "last", "offset", "length", "label", "number"),
            front=f"(?:page (?=[0-9]+ [0-9])|pages (?=[0-9]+-)){NUMBER}(?:-{NUMBER})?(?: {NUMBER} {NUMBER})?"
            rf" ((?:cell|freeblock)(?= )|(?:{PLAIN_LABELS})\Z)(?: {NUMBER})?",
            asides=patterns(count="bytes [0-9]+ owned [0-9]+ slack [0-9]+ fault [0-9]+ dead [0-9]+"),
            closing="count",
        ),
    )
}

# Which command prints a text, by its first line.
FIRST_LINES = {
    "show": re.compile("columns "),
    "timeline": re.compile("database pagesize "),
    "history": re.compile("(?:journal|[0-9]+) (?:row|rows|fault|no|unreadable)\\b"),
    "carve": re.compile("(?:database|wal|journal) [0-9]+ [0-9]+ |candidates "),
    "map": re.compile("page [0-9]+ [0-9]+ [0-9]+ [a-z]|pages [0-9]+-|bytes [0-9]+ owned "),
}


# ---- values

VALUE = rf" ({TEXT}|-?[0-9]{{1,19}}|NULL|real:[0-9a-f]{{16}}|x'[0-9a-f]*'|-|\?|\.\.\.)"
VALUES = re.compile(VALUE + "(?![^ ])")
KINDS = {**dict.fromkeys("-0123456789", "i"), "'": "t", "N": "n", "r": "r", "x": "b", "?": "l", ".": "p"}


def kinds_of(values: Sequence[str]) -> str:
    """The kinds of printed values, a letter each."""
    return "".join(["m" if value == "-" else KINDS[value[0]] for value in values])


ESCAPED = {f"{byte:02x}": bytes([byte]) for byte in range(256)}


def unmarked(piece: str) -> str:
    """A piece of a text that has no escapes but those of a backslash and of an apostrophe."""
    if "\\" in piece:
        what = "of a text in UTF-16, and texts are read as UTF-8" if "\\u" in piece else "that no text can have there"
        raise BadValue(f"has an escape {what}")
    return piece.replace(APOSTROPHE, "'").replace(BACKSLASH, "\\")


def bytes_of_utf8(inner: str) -> bytes:
    """The bytes of a text of a database in UTF-8, from what is printed between its marks."""
    first, *rest = inner.split("\\x")
    pieces = [unmarked(first).encode()]
    for piece in rest:
        if piece[:2] not in ESCAPED:
            raise BadValue("has an escape without two digits")
        pieces.append(ESCAPED[piece[:2]])
        pieces.append(unmarked(piece[2:]).encode())
    return b"".join(pieces)


UNIT = re.compile(r"\\u([0-9a-f]{4})")
ODD_BYTE = re.compile(r"\\x([0-9a-f]{2})\Z")


def codec_of(encoding: str) -> str:
    """Python's name for an encoding, without a byte order mark."""
    return encoding.replace("16", "16-")


def encoding_of(path: str) -> str:
    """The encoding of a database's texts, by its header; that of most where there is none."""
    try:
        with open(path, "rb") as file:
            head = file.read(60)
    except OSError:
        head = b""
    return {b"\0\0\0\2": "utf-16le", b"\0\0\0\3": "utf-16be"}.get(head[56:60], "utf-8")


def bytes_of_utf16(inner: str, encoding: str) -> bytes:
    """The bytes of a text of a database in UTF-16: the escape of a byte can stand at its end alone."""
    odd = ODD_BYTE.search(inner)
    pieces = UNIT.split(inner[: odd.start()] if odd else inner)
    made = [b""] * len(pieces)
    made[::2] = [unmarked(piece).encode(codec_of(encoding)) for piece in pieces[::2]]
    made[1::2] = [int(unit, 16).to_bytes(2, "little" if encoding == "utf-16le" else "big") for unit in pieces[1::2]]
    return b"".join(made) + (ESCAPED[odd[1]] if odd else b"")


def text_of(inner: str, encoding: str) -> Union[str, bytes]:
    """A text by what is printed between its marks; its bytes where these are no well-formed text."""
    if "\\" not in inner:
        return inner.replace(APOSTROPHE, "'").replace(BACKSLASH, "\\")
    stored = bytes_of_utf8(inner) if encoding == "utf-8" else bytes_of_utf16(inner, encoding)
    try:
        return stored.decode(codec_of(encoding))
    except UnicodeDecodeError:
        return stored


def blob_of(printed: str) -> bytes:
    """The bytes of a printed blob."""
    try:
        return bytes.fromhex(printed[2:-1])
    except ValueError:
        raise BadValue("has a blob of half a byte") from None


def integer_of(printed: str) -> int:
    """The integer that is printed."""
    number = int(printed)
    if not -(2**63) <= number < 2**63:
        raise BadValue("has an integer of more than 64 bits")
    return number


read_double = struct.Struct(">d").unpack


def real_of(printed: str) -> float:
    """The number whose 8 bytes are printed."""
    return read_double(bytes.fromhex(printed[5:]))[0]


def decoded(kind: str, printed: str, encoding: str) -> Tuple[str, Value]:
    """What a printed value is, and its kind: `T` is a text whose bytes are no well-formed one, and comes as these bytes;
    `R` a real that is no finite number, and comes as it is printed. A value that isn't there is None."""
    if kind == "i":
        return kind, integer_of(printed)
    if kind == "t":
        text = text_of(printed[1:-1], encoding)
        return ("t" if isinstance(text, str) else "T"), text
    if kind == "r":
        real = real_of(printed)
        return ("r", real) if real - real == 0 else ("R", printed)
    if kind == "b":
        return kind, blob_of(printed)
    return kind, None


def names_of(line: str) -> Optional[List[str]]:
    """The names that a line of columns has, or None where they are unknown. A name whose bytes are no UTF-8, or with a
    NUL, stays as it is printed."""
    if line == "columns unknown":
        return None
    return [name_of(printed[1:-1]) for printed in VALUES.findall(marked(line), len("columns"))]


def name_of(inner: str) -> str:
    """A column's name by what is printed between its marks."""
    text = text_of(inner, "utf-8")
    return text if isinstance(text, str) and "\0" not in text else original(inner)


# ---- texts

CONTROLS = bytes(range(32)).replace(b"\n", b"") + b"\x7f"
PRINTED_BYTES = bytes(set(range(256)) - set(CONTROLS))
CONTROL = re.compile("[\0-\x09\x0b-\x1f\x7f-\x9f]")
LATER_CONTROL = re.compile(b"\xc2[\x80-\x9f]")


def chunks_of(source: Source) -> Iterator[bytes]:
    """The bytes of a stream, cut behind a line feed, but for what stands behind the last one."""
    held: List[bytes] = []
    while True:
        piece = source.read1(CHUNK)
        if not piece:
            break
        end = piece.rfind(b"\n") + 1
        held.append(piece[:end] if end else piece)
        if end:
            yield b"".join(held)
            held = [piece[end:]]
    rest = b"".join(held)
    if rest:
        yield rest


class Reader:
    """Reads a text: `items` gives its rows, many at once, and its other lines, in order."""

    def __init__(self, source: Source, wanted: Optional[str] = None):
        """`wanted` is the command that the text has to be of, where only one will do."""
        self.source = source
        self.wanted = wanted
        self.command: Optional[Command] = None
        self.number = 0
        self.rows = 0
        self.faults = 0
        self.counted = (0, 0)
        self.ended = False
        self.last_row: Optional[Row] = None
        self.committed = 0
        self.patterns: Dict[int, Pattern[str]] = {}

    def items(self) -> Iterator[Union[List[Row], Aside]]:
        """The rows and the other lines. Raises TextError at the first line that the program doesn't print, and at the
        end where the text was cut."""
        for chunk in chunks_of(self.source):
            if not chunk.endswith(b"\n"):
                raise CutText(f"the text is cut off within line {self.number + 1}: {shown(chunk.decode('utf-8', 'replace'))}")
            lines = self.lines_of(chunk)
            if self.command is None:
                self.command = command_of(lines[0], self.wanted)
            yield from self.items_of(self.command, lines)
        self.check_end()

    def lines_of(self, chunk: bytes) -> List[str]:
        """The lines of a chunk, with the escapes of a backslash and of an apostrophe as one character each."""
        try:
            text = chunk.decode()
        except UnicodeDecodeError as error:
            number = self.number + chunk.count(b"\n", 0, error.start) + 1
            line = chunk[chunk.rfind(b"\n", 0, error.start) + 1 : chunk.index(b"\n", error.start)]
            raise BadLine(number, line.decode("utf-8", "backslashreplace"), "has bytes that are no UTF-8") from None
        if chunk.translate(None, PRINTED_BYTES) or LATER_CONTROL.search(chunk):
            for number, one in enumerate(text.split("\n"), self.number + 1):
                if CONTROL.search(one):
                    raise BadLine(number, one.replace("\0", "\\0").replace("\1", "\\1"), "has a control character")
        lines = marked(text).split("\n")
        lines.pop()
        return lines

    def items_of(self, command: Command, lines: List[str]) -> Iterator[Union[List[Row], Aside]]:
        """The rows of some lines, as long as no other line stands between them, and these. Rows of one table mostly have
        as many values as the row before, so its pattern is tried first."""
        number, fields, tail = self.number, len(command.fields), -len(command.behind) or None
        match = self.pattern_for(command, max(self.patterns, default=0)).fullmatch
        rows: List[Row] = []
        for line in lines:
            number += 1
            found = match(line)
            groups = found.groups("") if found else self.row_of(command, line)
            if groups is None:
                if rows:
                    yield self.taken(command, rows)
                    rows = []
                self.number = number
                yield self.aside_of(command, line)
                continue
            values = groups[fields:tail]
            if found is None:
                match = self.pattern_for(command, len(values)).fullmatch
            kinds = kinds_of(values) if "-" in values else "".join([KINDS[value[0]] for value in values])
            rows.append((number, groups, kinds, line))
        if rows:
            yield self.taken(command, rows)
        self.number = number

    def taken(self, command: Command, rows: List[Row]) -> List[Row]:
        """Counts rows that stand side by side, where rows can stand."""
        number, _, _, line = rows[0]
        if self.ended or number <= len(command.opening):
            raise BadLine(number, line, "stands behind the last line" if self.ended else "can't stand there")
        self.rows += len(rows)
        self.last_row = rows[-1]
        return rows

    def pattern_for(self, command: Command, count: int) -> Pattern[str]:
        """The pattern of a row with so many values, or with none where these are very many."""
        count = count if count <= PATTERNED else 0
        if count not in self.patterns:
            self.patterns[count] = re.compile(command.front + VALUE * count + command.back)
        return self.patterns[count]

    def row_of(self, command: Command, line: str) -> Optional[Tuple[str, ...]]:
        """The fields and values of a line that is a row, found one by one."""
        front = re.compile(command.front).match(line)
        back = re.compile(rf"(?:{command.back})\Z").search(line)
        if front is None or back is None or front.end() > back.start():
            return None
        values = VALUES.findall(line, front.end(), back.start()) if command.has_values else []
        if front.end() + sum(map(len, values)) + len(values) != back.start():
            return None
        return (*front.groups(""), *values, *back.groups(""))

    def aside_of(self, command: Command, line: str) -> Aside:
        """The line at `self.number`, which is no row."""
        if self.ended:
            raise BadLine(self.number, line, "stands behind the last line")
        kind, found = kind_of(command, line)
        if found is None:
            raise BadLine(self.number, line, f"is no line of {command.name}")
        if kind == "columns":
            self.check_names(original(line))
        wanted = command.opening[self.number - 1] if self.number <= len(command.opening) else None
        if kind != wanted and (wanted or kind in command.opening):
            raise BadLine(self.number, line, "can't stand there")
        parts = found.groupdict()
        self.committed = int(parts.get("committed") or self.committed)
        self.faults += kind == "fault"
        if kind in ("count", "lack"):
            self.check_count(command, line, parts)
            self.ended = command.closing == kind
        page, cell = parts.get("page"), parts.get("cell")
        return Aside(self.number, kind, original(line), parts.get("moment"), int(page) if page else None, int(cell) if cell else None)

    def check_names(self, line: str) -> None:
        """The names of columns can be read."""
        try:
            names_of(line)
        except BadValue as bad:
            raise BadLine(self.number, line, str(bad)) from None

    def check_count(self, command: Command, line: str, parts: Dict[str, Optional[str]]) -> None:
        """The line says how many rows, and in `show` how many faults, came before it."""
        rows = self.rows - self.counted[0]
        self.counted = (self.rows, self.faults)
        if command.has_values and int(parts.get("rows") or 0) != rows:
            raise BadLine(self.number, line, f"counts other rows than the {rows} before it")
        if command.name == "show" and int(parts["faults"] or 0) != self.faults:
            raise BadLine(self.number, line, f"counts other faults than the {self.faults} before it")

    def check_end(self) -> None:
        """The text ends behind its last line. The texts of `timeline` and of `history` have none: the last moment of the
        one is that of the last committed frame, and a moment of the other ends with its counts."""
        command = self.command
        if command is None:
            raise CutText("there is no text")
        if command.name == "timeline":
            last = self.last_row[1][:2] if self.last_row else None
            whole = last is not None and (last[1] == str(self.committed - 1) if self.committed else last == ("0", ""))
        else:
            whole = self.ended if command.closing else self.counted == (self.rows, self.faults)
        if not whole:
            raise CutText(f"the text is cut off behind line {self.number}: the last line of {command.name} isn't there")


def kind_of(command: Command, line: str) -> Tuple[str, Optional[Match[str]]]:
    """The kind of a line that is no row, and its parts."""
    for kind, pattern in command.asides.items():
        found = pattern.fullmatch(line)
        if found:
            return kind, found
    return "", None


def command_of(line: str, wanted: Optional[str]) -> Command:
    """The command that prints a text with this first line."""
    if line.startswith(("refused: ", "usage: ")):
        raise Refused(line)
    for name, pattern in FIRST_LINES.items():
        if pattern.match(line) and wanted in (None, name):
            return COMMANDS[name]
    raise BadLine(1, line, f"begins no text of {wanted}" if wanted else "begins none of the texts that are read")
