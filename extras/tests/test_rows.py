"""Tests of zincstoat-rows: values of every kind read back from each form and compared with what SQLite selects, hostile
values, bad lines, texts that are cut off, statuses, and that its memory doesn't grow with the text."""

from __future__ import annotations

import base64
import contextlib
import csv
import io
import json
import math
import os
import pty
import random
import sqlite3
import struct
import subprocess
import sys
import tempfile
import unittest
from importlib.machinery import SourceFileLoader
from importlib.util import module_from_spec, spec_from_loader
from pathlib import Path
from typing import Any, Dict, List, Optional, Tuple
from unittest import mock

EXTRAS = Path(__file__).resolve().parent.parent
sys.path.insert(0, str(EXTRAS))
sys.dont_write_bytecode = True
ROWS = EXTRAS / "zincstoat-rows"
PROGRAM = EXTRAS.parent / "crates/sx_main/out/sx_main"
EXAMPLES = EXTRAS.parent / "examples"

USAGE, BAD_TEXT, NO_PROGRAM, NO_OUTPUT = 64, 65, 70, 73

# The bytes of texts of a database in UTF-8: hostile to what is written, or no UTF-8 at all.
TEXTS = [
    b"",
    b"plain",
    b"It's \"here\", isn't it?",
    b"a,b;c\td",
    b"one\ntwo\r\nthree\r",
    b"back\\slash \\x41 \\u0041 \\' \\\\",
    b"'",
    b"\\",
    b"ends with \\",
    b"NULL",
    b"-",
    b"?",
    b"...",
    b"real:3fe8000000000000",
    b"x'00'",
    b"17",
    b"=1+1",
    b"{\"mark\":\"-\"}",
    b"with\0NUL",
    b"\0",
    bytes(range(128)),
    "Zürich 東京 😀 \u0085 \u00a0 \u2028 \u202e \ufeff \uffff \U0010ffff".encode(),
    b"lone \xed\xa0\x80 surrogate",
    b"\xed\xb0\x80",
    bytes(range(128, 256)),
    b"cut \xf0\x9f\x98",
    b"\xc0\xaf overlong",
    b"\xff" * 3000,
]
REALS = [1.5, -0.25, 0.1, 1e300, -1e-300, 5e-324, 1.7976931348623157e308, float("inf"), float("-inf"), 1 / 3]
INTEGERS = [0, 1, -1, 127, -128, 2**31, 2**53 + 1, 2**63 - 1, -(2**63)]
BLOBS = [b"", b"\0", bytes(range(256)), b"'\"\n,"]

Stored = Tuple[str, Any]


def hand_on(words: List[str], text: Optional[bytes] = None) -> subprocess.CompletedProcess[bytes]:
    """Runs the companion on a text, or by itself."""
    return subprocess.run([sys.executable, str(ROWS), *words], input=text, capture_output=True, timeout=60)


def loaded(path: Path) -> Any:
    """A companion as a module."""
    loader = SourceFileLoader(path.name.replace("-", "_"), str(path))
    module = module_from_spec(spec_from_loader(loader.name, loader))  # type: ignore[arg-type]
    sys.modules[loader.name] = module
    loader.exec_module(module)
    return module


rows_module = loaded(ROWS)
texts_module = rows_module.texts


def hand_on_here(words: List[str], text: bytes) -> Tuple[int, str]:
    """Runs the companion's main function on a text: its status, and what it tells on standard error."""
    told = io.StringIO()
    with mock.patch("sys.stdin", io.TextIOWrapper(io.BytesIO(text))), contextlib.redirect_stderr(told):
        return rows_module.main(words), told.getvalue()


def printed_by(*words: str) -> bytes:
    """What the program prints."""
    return subprocess.run([str(PROGRAM), *words], capture_output=True, timeout=60, check=True).stdout


def objects_of(text: bytes) -> List[Dict[str, Any]]:
    """The objects of JSON Lines."""
    return [json.loads(line) for line in text.decode().split("\n")[:-1]]


def rows_of_csv(text: bytes) -> List[Dict[str, str]]:
    """The rows of CSV by their columns, and that all are as long as the first line."""
    csv.field_size_limit(1 << 26)
    head, *rows = csv.reader(io.StringIO(text.decode(), newline=""), strict=True)
    assert all(len(row) == len(head) for row in rows), "rows of other lengths"
    return [dict(zip(head, row)) for row in rows]


def unhexed(cell: str) -> bytes:
    """The bytes that x'..' stands for."""
    assert cell.startswith("x'") and cell.endswith("'"), cell
    return bytes.fromhex(cell[2:-1])


def real_of(digits: str) -> float:
    """The number of 8 bytes."""
    return struct.unpack(">d", bytes.fromhex(digits))[0]


def value_of_csv(kind: str, cell: str, codec: str, base64_blobs: bool = False) -> Stored:
    """A cell as SQLite types it: a text by its bytes as they are stored."""
    if kind in "nmlp":
        assert cell == "", cell
        return {"n": "null", "m": "missing", "l": "lost", "p": "part"}[kind], None
    if kind == "b":
        return "blob", base64.b64decode(cell, validate=True) if base64_blobs else unhexed(cell)
    if kind in "tT":
        return "text", cell.encode(codec) if kind == "t" else unhexed(cell)
    if kind == "i":
        return "integer", int(cell)
    assert kind == "R" or math.isfinite(float(cell)), cell
    return "real", float(cell) if kind == "r" else real_of(cell[len("real:") :])


def value_of_json(value: Any, codec: str) -> Stored:
    """The same of a value of JSON."""
    if isinstance(value, dict):
        ((name, told),) = value.items()
        if name == "mark":
            return {"-": "missing", "?": "lost", "...": "part"}[told], None
        if name == "real":
            return "real", real_of(told)
        if name == "base64":
            return "blob", base64.b64decode(told, validate=True)
        return name, unhexed(told)
    if isinstance(value, str):
        return "text", value.encode(codec)
    return {type(None): "null", int: "integer", float: "real"}[type(value)], value


def value_of_sqlite(kind: str, value: Any, codec: str) -> Stored:
    """The same of a value of a written database."""
    if kind in "nmlp":
        assert value is None
        return value_of_csv(kind, "", codec)
    if kind == "R":
        return "real", real_of(value[len("real:") :])
    if kind in "tT":
        return "text", value.encode(codec) if kind == "t" else value
    return {"i": "integer", "r": "real", "b": "blob"}[kind], value


class WithFolder(unittest.TestCase):
    """A test with a folder of its own."""

    def setUp(self) -> None:
        folder = tempfile.TemporaryDirectory()
        self.addCleanup(folder.cleanup)
        self.folder = Path(folder.name)

    def written(self, form: str, words: List[str], text: Optional[bytes] = None) -> Path:
        """The file that is written, where all goes well."""
        path = self.folder / f"written.{len(os.listdir(self.folder))}"
        done = hand_on(["--to", form, str(path), *words], text)
        self.assertEqual(0, done.returncode, done.stderr)
        return path


class Values(WithFolder):
    """Values of every kind, from SQLite through the program and each form."""

    def make(self, encoding: str) -> Tuple[Path, List[List[Stored]]]:
        """A database of hostile values, and what SQLite selects of it."""
        path = self.folder / "case.db"
        connection = sqlite3.connect(path)
        connection.execute(f"PRAGMA encoding = '{encoding}'")
        connection.execute("CREATE TABLE kinds(id INTEGER PRIMARY KEY, a, b, c)")
        codec = {"UTF-8": "utf-8", "UTF-16le": "utf-16-le", "UTF-16be": "utf-16-be"}[encoding]
        texts = [text if encoding == "UTF-8" else text.decode("utf-8", "surrogateescape").encode(codec, "surrogatepass") for text in TEXTS]
        for text in texts:
            connection.execute("INSERT INTO kinds(a, b) VALUES (CAST(? AS TEXT), ?)", (text, text))
        others: List[Any] = [None, *INTEGERS, *REALS, *BLOBS]
        for place, value in enumerate(others):
            connection.execute("INSERT INTO kinds(a, b, c) VALUES (?, ?, ?)", (value, others[-1 - place], 'both "quotes" and \'apostrophes\''))
        if encoding == "UTF-8":
            connection.execute("INSERT INTO kinds(a, b) VALUES (?, CAST(? AS TEXT))", (random.Random(1).randbytes(1 << 20), b"\xff\0'\"\\" * 999))
        connection.execute("ALTER TABLE kinds ADD COLUMN later")
        connection.execute("INSERT INTO kinds(later) VALUES (-0.0)")
        connection.commit()
        count = connection.execute("SELECT count(*) FROM kinds").fetchone()[0]
        wanted = []
        for row in connection.execute("SELECT id, " + ", ".join(f"typeof({n}), CASE typeof({n}) WHEN 'text' THEN CAST({n} AS BLOB) ELSE {n} END" for n in "abc") + ", typeof(later), later FROM kinds ORDER BY id"):
            later = row[7:9] if row[0] == count else ("missing", None)
            wanted.append([("integer", row[0]), row[1:3], row[3:5], row[5:7], later])
        connection.close()
        return path, wanted

    def compare(self, wanted: List[List[Stored]], found: List[List[Stored]]) -> None:
        """All values, by type and bytes; reals by their 8 bytes."""
        self.assertEqual(len(wanted), len(found))
        for want, have in zip(wanted, found):
            exact = [[(kind, struct.pack(">d", value) if kind == "real" else value) for kind, value in row] for row in (want, have)]
            self.assertEqual(exact[0], exact[1], f"row {want[0]}")

    def test_values_come_back_from_each_form(self) -> None:
        for encoding, codec in (("UTF-8", "utf-8"), ("UTF-16le", "utf-16-le"), ("UTF-16be", "utf-16-be")):
            with self.subTest(encoding):
                for old in self.folder.iterdir():
                    old.unlink()
                case, wanted = self.make(encoding)
                text = printed_by(str(case), "show", "table=kinds")
                told = ["--encoding", encoding.lower()]
                names = ["id", "a", "b", "c", "later"]

                for blobs in ("hex", "base64"):
                    made = rows_of_csv(self.written("csv", [*told, "--blobs", blobs], text).read_bytes())
                    self.compare(wanted, [[value_of_csv(kind, row[name], codec, blobs == "base64") for kind, name in zip(row["types"], names)] for row in made])
                    self.assertEqual([str(row[0][1]) for row in wanted], [row["rowid"] for row in made])
                    self.assertEqual([str(line) for line in range(2, len(wanted) + 2)], [row["line"] for row in made])

                    lines = objects_of(self.written("jsonl", [*told, "--blobs", blobs], text).read_bytes())
                    self.assertEqual(names, lines[0]["names"])
                    self.compare(wanted, [[value_of_json(value, codec) for value in line["values"]] for line in lines if line["kind"] == "row"])

                made = rows_of_csv(self.written("csv", [*told, "--reals", "hex"], text).read_bytes())
                self.assertEqual(set(), {kind for row in made for kind in row["types"]} & {"r"})
                self.compare(wanted, [[value_of_csv(kind, row[name], codec) for kind, name in zip(row["types"], names)] for row in made])

                written = sqlite3.connect(self.written("sqlite", told, text))
                rows = written.execute('SELECT types, "id", a, b, c, later FROM rows ORDER BY line').fetchall()
                self.compare(wanted, [[value_of_sqlite(kind, value, codec) for kind, value in zip(types, values)] for types, *values in rows])
                self.assertEqual([("columns",), ("count",)], written.execute("SELECT kind FROM aside ORDER BY line").fetchall())
                written.close()

    def test_the_encoding_is_that_of_the_header(self) -> None:
        done = hand_on(["--to", "jsonl", "-", "--program", str(PROGRAM), "--run", str(EXAMPLES / "stations.db"), "show", "table=station"])
        self.assertEqual(0, done.returncode, done.stderr)
        self.assertEqual([3, {"text": "x'00d84100'"}], objects_of(done.stdout)[-2]["values"])

    def test_texts_in_utf_16_that_sqlite_writes_nowhere(self) -> None:
        """A single last byte, and an escape that only the other encoding has."""
        text = b"columns 'a'\nrow 1 'A\\x41'\nrow 2 '\\u000a\\udc00\\x0a'\nrows 2 faults 0\n"
        done = hand_on(["--to", "jsonl", "-", "--encoding", "utf-16be"], text)
        self.assertEqual([[{"text": "x'004141'"}], [{"text": "x'000adc000a'"}]], [line["values"] for line in objects_of(done.stdout)[1:3]])
        done = hand_on(["--to", "jsonl", "-"], text)
        self.assertEqual(BAD_TEXT, done.returncode)
        self.assertIn(b"line 3 has an escape of a text in UTF-16", done.stderr)


SHOW = b"""columns 'id' 'LINE' 'types' 'id' '' 'a\\x00b'
row 1 1 NULL 'x' -5 real:7ff8000000000001 - 7 'more \\' "words"'
fault badcell page 3 cell 2
row -2 x'00ff' -
fault absent page 9
rows 2 faults 2
"""
CARVE = b"""database 342 85 lost5 page 1 file rowid ? ? 'plan' NULL
wal 1482 28 full page 3 committed rowid -2 1 '...' 7 ... overflow 17
journal 20 9 types3 page 4294967295 good rowid ? 'overflow 5'
candidates 3
"""
HISTORY = b"""journal unreadable
0 no table
1 fault shortchain page 7 cell 0
1 row 3 3 'a'
1 rows 1 faults 1
2 no tree
3 rows 0 faults 0
"""
TIMELINE = b"""database pagesize 1024 usable 1024 pages 3
wal good frames 7 committed 2 pending 1 foreign 0 broken 4
journal live records 5 good 5
journal pages 8 held 8 uncertain 0
0 pages 3 held 3 uncertain 2
1 frame 1 pages 3 held 3 uncertain 0
"""
MAP = b"""page 1 0 100 dbheader
page 1 100 412 cell 3
pages 2-4294967295 absent
bytes 2048 owned 512 slack 0 fault 1536 dead 1
"""
TEXTS_OF = {"show": SHOW, "carve": CARVE, "history": HISTORY, "timeline": TIMELINE, "map": MAP}


class Lines(WithFolder):
    """Rows and other lines of each command, from written texts."""

    def objects(self, text: bytes, *words: str) -> List[Dict[str, Any]]:
        """The objects that a text gives."""
        done = hand_on(["--to", "jsonl", "-", *words], text)
        self.assertEqual((0, b""), (done.returncode, done.stderr))
        return objects_of(done.stdout)

    def test_show(self) -> None:
        rows = [line for line in self.objects(SHOW) if line["kind"] == "row"]
        self.assertEqual([1, None, "x", -5, {"real": "7ff8000000000001"}, {"mark": "-"}, 7, "more ' \"words\""], rows[0]["values"])
        self.assertEqual([1, -2], [row["rowid"] for row in rows])
        faults = [line for line in self.objects(SHOW) if line["kind"] == "fault"]
        self.assertEqual([(3, 3, 2, "fault badcell page 3 cell 2"), (5, 9, None, "fault absent page 9")], [(one["line"], one["page"], one.get("cell"), one["text"]) for one in faults])

    def test_names_are_made_unique(self) -> None:
        """Also in another case, and where a name is that of a field; values without a name are kept as they are printed."""
        aside = self.folder / "aside.csv"
        first, *rest = rows_of_csv(self.written("csv", ["--aside", str(aside)], SHOW).read_bytes())
        names = ["line", "rowid", "types", "id", "LINE 2", "types 2", "id 2", "", "a\\x00b", "more"]
        self.assertEqual(names, list(first))
        self.assertEqual(["2", "1", "intiRmit", "1", "", "x", "-5", "real:7ff8000000000001", "", "7 'more \\' \"words\"'"], list(first.values()))
        self.assertEqual(["4", "-2", "bm", "x'00ff'", "", "", "", "", "", ""], list(rest[0].values()))
        self.assertEqual(["columns", "fault", "fault", "count"], [row["kind"] for row in rows_of_csv(aside.read_bytes())])
        self.assertEqual(SHOW.split(b"\n")[2].decode(), rows_of_csv(aside.read_bytes())[1]["text"])
        written = sqlite3.connect(self.written("sqlite", [], SHOW))
        self.assertEqual(names, [column[0] for column in written.execute("SELECT * FROM rows").description])
        self.assertEqual([(3, 2, "fault badcell page 3 cell 2"), (9, None, "fault absent page 9")], written.execute("SELECT page, cell, text FROM aside WHERE kind = 'fault'").fetchall())
        written.close()

    def test_names_with_marks(self) -> None:
        """As SQLite has them, in each form."""
        names = ["it's", 'a "b"', "back\\slash", "\\x41", "a,b", "two\nlines", "Zürich", "", "; DROP TABLE rows", "'", "\\'"]
        case = self.folder / "names.db"
        connection = sqlite3.connect(case)
        columns = ", ".join('"' + name.replace('"', '""') + '"' for name in names)
        connection.execute(f"CREATE TABLE t({columns})")
        connection.execute(f"INSERT INTO t VALUES ({', '.join('?' * len(names))})", names)
        connection.commit()
        connection.close()
        text = printed_by(str(case), "show", "table=t")
        self.assertEqual(names, self.objects(text)[0]["names"])
        (row,) = rows_of_csv(self.written("csv", [], text).read_bytes())
        self.assertEqual(dict(zip(names, names)), {name: row[name] for name in names})
        written = sqlite3.connect(self.written("sqlite", [], text))
        written.row_factory = sqlite3.Row
        (found,) = written.execute("SELECT * FROM rows").fetchall()
        self.assertEqual(dict(zip(names, names)), {name: found[name] for name in names})
        written.close()

    def test_faults_of_csv_go_to_standard_error(self) -> None:
        done = hand_on(["--to", "csv", "-"], SHOW)
        self.assertEqual(0, done.returncode)
        for line in (b"line 3: fault badcell page 3 cell 2", b"line 5: fault absent page 9", b"line 6: rows 2 faults 2"):
            self.assertIn(line, done.stderr)

    def test_columns_that_are_unknown(self) -> None:
        text = b"columns unknown\nrow - 1 'a' 2\nrows 1 faults 0\n"
        (row,) = rows_of_csv(self.written("csv", ["--columns", "2"], text).read_bytes())
        self.assertEqual({"line": "2", "rowid": "-", "types": "iti", "value1": "1", "value2": "a", "more": "2"}, row)

    def test_carve(self) -> None:
        lost, part, word = self.objects(CARVE)[:3]
        self.assertEqual([{"mark": "?"}, "plan", None], lost["values"])
        self.assertEqual([1, "...", 7, {"mark": "..."}], part["values"])
        self.assertEqual(["wal", 1482, 28, "full", 3, "committed", -2, 17], [part[key] for key in ("part", "offset", "length", "form", "page", "class", "rowid", "overflow")])
        self.assertEqual((None, ["overflow 5"], None), (word["rowid"], word["values"], word["overflow"]))
        rows = rows_of_csv(self.written("csv", [], CARVE).read_bytes())
        self.assertEqual(["ltn", "itip", "t"], [row["types"] for row in rows])
        self.assertEqual(["", "17", ""], [row["overflow"] for row in rows])
        written = sqlite3.connect(self.written("sqlite", [], CARVE))
        self.assertEqual(("full", -2), written.execute("SELECT form, rowid FROM candidates WHERE part = 'wal'").fetchone())
        written.close()

    def test_history(self) -> None:
        lines = self.objects(HISTORY)
        self.assertEqual(["lack", "lack", "fault", "row", "count", "lack", "count"], [line["kind"] for line in lines])
        self.assertEqual(["journal", "0", "1", "1", "1", "2", "3"], [line["moment"] for line in lines])

    def test_timeline_and_map(self) -> None:
        moments = [line for line in self.objects(TIMELINE) if line["kind"] == "row"]
        self.assertEqual([("journal", None, 0), ("0", None, 2), ("1", 1, 0)], [(one["moment"], one["frame"], one["uncertain"]) for one in moments])
        runs = [line for line in self.objects(MAP) if line["kind"] == "row"]
        fields = ("page", "last", "offset", "length", "label", "number")
        wanted = [[1, None, 0, 100, "dbheader", None], [1, None, 100, 412, "cell", 3], [2, 4294967295, None, None, "absent", None]]
        self.assertEqual(wanted, [[run[name] for name in fields] for run in runs])

    def test_the_program_s_own_texts(self) -> None:
        """Each line of what the program prints over the examples is taken, and none twice."""
        for name in ("chat", "restarted", "checkpointed", "interrupted", "removed", "stock"):
            for words in (["timeline"], ["map"], ["carve"], ["show", "table=sqlite_schema"], ["history", "table=message", "rowid=3"]):
                text = printed_by(str(EXAMPLES / f"{name}.db"), *words)
                lines = self.objects(text, "--from", words[0])
                self.assertEqual(list(range(1, text.count(b"\n") + 1)), [line["line"] for line in lines])


    def take(self, text: bytes, encoding: str) -> bool:
        """Whether a text is taken, with all its values."""
        reader = texts_module.Reader(io.BytesIO(text))
        try:
            for item in reader.items():
                if isinstance(item, list):
                    fields = len(reader.command.fields)
                    for _, parts, kinds, _ in item:
                        for kind, printed in zip(kinds, parts[fields:]):
                            texts_module.decoded(kind, printed, encoding)
        except texts_module.TextError:
            return False
        return True

    def test_the_worked_texts(self) -> None:
        """Each text of the worked cases is taken, and each refusal isn't."""
        taken = 0
        for case in (EXTRAS.parent / "crates/sx_cases/data/cases").read_text(encoding="utf-8").split("\ncase ")[1:]:
            lines = [line.partition(" ") for line in case.split("\n")]
            words = next((rest for key, _, rest in lines if key == "words"), "").split(" ")
            status = next(rest for key, _, rest in lines if key == "status")
            text = "".join(rest + "\n" for key, _, rest in lines if key == ">")
            if len(words) > 1 and words[1] in texts_module.COMMANDS:
                taken += status == "0"
                encoding = "utf-16le" if "\\u" in text else "utf-8"
                self.assertEqual(status == "0", self.take(text.encode(), encoding), case)
        self.assertGreater(taken, 100)

    def test_damaged_evidence(self) -> None:
        """Whatever the bytes of the evidence are, what is printed of them is taken."""
        drawn = random.Random(29)
        for copy in range(40):
            name = drawn.choice(("chat", "checkpointed", "removed", "stock", "interrupted"))
            case = self.folder / f"{copy}.db"
            for ending in ("", "-wal", "-journal"):
                example = EXAMPLES / f"{name}.db{ending}"
                if example.exists():
                    stored = bytearray(example.read_bytes())
                    for _ in range(drawn.choice((1, 5, 40))):
                        stored[drawn.randrange(100, len(stored))] = drawn.choice((0, 255, drawn.randrange(256)))
                    Path(f"{case}{ending}").write_bytes(stored)
            for words in (["map"], ["carve", "at=all"], ["show", "table=sqlite_schema"]):
                done = subprocess.run([str(PROGRAM), str(case), *words], capture_output=True, timeout=60)
                self.assertEqual(done.returncode == 0, self.take(done.stdout, "utf-8"), (name, copy, words, done.stdout[-300:]))


class Refusals(WithFolder):
    """Texts that aren't the program's, and words that can't be."""

    def refused(self, text: bytes, number: int, why: str = "") -> None:
        """A line is refused by its number and its words, in each form, and no file has its name then."""
        for form in ("csv", "jsonl", "sqlite"):
            path = self.folder / "refused"
            status, told = hand_on_here(["--to", form, str(path)], text)
            self.assertEqual(BAD_TEXT, status, (text, told))
            self.assertIn(f"line {number} ", told, text)
            self.assertIn(why, told, text)
            self.assertFalse(path.exists())
            for left in self.folder.iterdir():
                left.unlink()

    def test_bad_lines(self) -> None:
        head, end = b"columns 'a'\nrow 1 1\n", b"\nrows 2 faults 0\n"
        for row in (
            b"row 2 'a", b"row 2 a", b"row 2  1", b"row 2 1 ", b"row 2 'a' b'", b"row 2 'a'b", b"row 2 'a\\'", b"row 2 '\\q'", b"row 2 '\\x4'",
            b"row 2 '\\x4g'", b"row 2 '\\X41'", b"row 2 '\\", b"row 2 'a\\u00'", b"row 2 x'0'", b"row 2 x'0g'", b"row 2 real:3ff", b"row 2 1.5",
            b"row 2 99999999999999999999", b"row x 1", b"row", b"", b"ROW 2 1", b"fault badcell", b"fault other page 3",
            b"columns 'b'", b"row 2 '\xc2'", b"row 2 '\xed\xa0\x80'", b"row 2 'tab\there'", b"row 2 'a\0b'", b"row 2 'a\x01b'", b"row 2 '\xc2\x85'", b"row 2 1\r",
            b"page 1 0 100 dbheader", b"refused: no such table",
        ):
            with self.subTest(row):
                self.refused(head + row + end, 3)

    def test_an_integer_that_no_value_is(self) -> None:
        done = hand_on(["--to", "sqlite", str(self.folder / "a")], b"columns 'a'\nrow 1 9223372036854775808\nrows 1 faults 0\n")
        self.assertEqual(BAD_TEXT, done.returncode)
        self.assertIn(b"line 2 has an integer of more than 64 bits", done.stderr)

    def test_bad_names_and_rowids(self) -> None:
        self.refused(b"columns 'a' '\\q'\nrows 0 faults 0\n", 1, "has an escape")
        self.refused(b"columns 'a' 'b\nrows 0 faults 0\n", 1)
        status, told = hand_on_here(["--to", "sqlite", str(self.folder / "a")], b"columns 'a'\nrow 9999999999999999999 1\nrows 1 faults 0\n")
        self.assertEqual((BAD_TEXT, True), (status, "line 2 has an integer of more than 64 bits" in told), told)

    def test_counts_that_are_wrong(self) -> None:
        self.refused(SHOW.replace(b"rows 2", b"rows 3"), 6, "counts other rows")
        self.refused(SHOW.replace(b"faults 2", b"faults 0"), 6, "counts other faults")
        self.refused(CARVE.replace(b"candidates 3", b"candidates 2"), 4, "counts other rows")
        self.refused(HISTORY.replace(b"1 rows 1", b"1 rows 0"), 5, "counts other rows")
        self.refused(SHOW + b"row 1 1\n", 7, "behind the last line")
        self.refused(MAP + MAP, 5, "behind the last line")
        self.refused(TIMELINE.replace(b"wal good", b"wax good"), 2)
        self.refused(b"columns 'a'\ncolumns 'a'\nrows 0 faults 0\n", 2, "can't stand there")
        self.refused(b"page 3 from wal offset 6344\n", 1, "begins none")
        self.refused(MAP.replace(b"dbheader", b"dbheader 4"), 1)
        self.refused(MAP.replace(b"cell 3", b"cell"), 2)

    def test_texts_that_are_cut_off(self) -> None:
        """Everywhere but behind a moment of a history, whose text has no last line."""
        for name, text in TEXTS_OF.items():
            whole = {len(text)}
            if name == "history":
                whole.update(text.index(start) for start in (b"0 no", b"1 fault", b"2 no", b"3 rows"))
            for end in range(len(text) + 1):
                status, told = hand_on_here(["--to", "sqlite", str(self.folder / "cut")], text[:end])
                self.assertEqual(0 if end in whole else BAD_TEXT, status, (name, text[:end], told))
                for left in self.folder.iterdir():
                    left.unlink()

    def test_what_the_program_refuses(self) -> None:
        for words, status in ((["nope.db", "timeline"], 2), ([str(EXAMPLES / "chat.db"), "show", "table=nope"], 7), ([str(EXAMPLES / "chat.db"), "map", "at=99"], 5), (["a", "b"], 1)):
            path = self.folder / "refused"
            done = hand_on(["--to", "csv", str(path), "--program", str(PROGRAM), "--run", *words])
            self.assertEqual(status, done.returncode, done.stderr)
            self.assertRegex(done.stderr, b"the program printed '(refused|usage): ")
            self.assertEqual([], list(self.folder.iterdir()))

    def test_a_program_that_fails(self) -> None:
        """Its status is handed on, whether its text is cut off or whole."""
        program = self.folder / "program"
        program.write_bytes(b"#!/bin/sh\nprintf \"columns 'a'\\nrow 1 1\\n\"\n[ $1 = cut ] || echo 'rows 1 faults 0'\nexit 10\n")
        program.chmod(0o755)
        for word in ("cut", "whole"):
            path = self.folder / word
            done = hand_on(["--to", "csv", str(path), "--program", str(program), "--run", word])
            self.assertEqual(10, done.returncode, done.stderr)
            self.assertIn(b"the program ended with status 10", done.stderr)
            self.assertFalse(path.exists())
            self.assertEqual("1", rows_of_csv(Path(f"{path}.part").read_bytes())[0]["a"])
        done = hand_on(["--to", "csv", "-", "--program", str(self.folder / "nope"), "--run", "a"])
        self.assertEqual(NO_PROGRAM, done.returncode)

    def test_words(self) -> None:
        there = self.folder / "there"
        there.write_bytes(b"evidence")
        for form in ("csv", "jsonl", "sqlite"):
            done = hand_on(["--to", form, str(there)], SHOW)
            self.assertEqual((NO_OUTPUT, b"evidence"), (done.returncode, there.read_bytes()), done.stderr)
        for words in ([], ["--to", "xml", "a"], ["--to", "sqlite", "-"], ["--to", "csv", "-", "--columns", "0"], ["--to", "jsonl", "-", "--aside", "a"], ["--to", "sqlite", "a", "--blobs", "base64"]):
            self.assertEqual(USAGE, hand_on(words, SHOW).returncode, words)
        self.assertEqual(BAD_TEXT, hand_on(["--to", "csv", "-", "--from", "map"], SHOW).returncode)
        self.assertEqual(0, hand_on(["--help"]).returncode)

    @unittest.skipUnless(os.path.exists("/dev/full"), "no /dev/full here")
    def test_a_full_disk(self) -> None:
        with open("/dev/full", "wb") as full:
            done = subprocess.run([sys.executable, str(ROWS), "--to", "csv", "-"], input=SHOW, stdout=full, stderr=subprocess.PIPE)
        self.assertEqual(NO_OUTPUT, done.returncode)
        self.assertIn(b"No space left", done.stderr)


PEAK = """
import resource, runpy, sys
sys.path.insert(0, sys.argv[1])
sys.argv = sys.argv[2:]
try:
    runpy.run_path(sys.argv[0], run_name="__main__")
except SystemExit as end:
    assert not end.code, end.code
print(resource.getrusage(resource.RUSAGE_SELF).ru_maxrss, file=sys.stderr)
"""


class Streams(WithFolder):
    """Long texts."""

    def peak(self, form: str, rows: int) -> int:
        """The most memory that a text of so many rows takes, in KiB."""
        row = b"row %d %d 'a message of some words' NULL real:3fe8000000000000 x'00ff'\n"
        text = self.folder / "text"
        with open(text, "wb") as file:
            file.write(b"columns 'a' 'b' 'c' 'd' 'e'\n")
            file.writelines(row % (number, number) for number in range(rows))
            file.write(b"rows %d faults 0\n" % rows)
        made = self.folder / f"{form}{rows}"
        with open(text, "rb") as file:
            words = [sys.executable, "-c", PEAK, str(EXTRAS), str(ROWS), "--to", form, str(made)]
            done = subprocess.run(words, stdin=file, capture_output=True, check=True)
        self.assertGreater(made.stat().st_size, rows)
        return int(done.stderr.split()[-1])

    def test_memory_does_not_grow_with_the_text(self) -> None:
        for form in ("csv", "jsonl", "sqlite"):
            few, many = self.peak(form, 10_000), self.peak(form, 120_000)
            self.assertLess(many, few + 8_000, form)

    def test_values_of_megabytes(self) -> None:
        """A text of a million escapes, and many values in a row, take no more than their length."""
        stored = bytes(1 << 20)
        text = b"columns 'a'\nrow 1 '" + b"\\x00" * len(stored) + b"'\nrow 2" + b" NULL" * 20_000 + b"\nrows 2 faults 0\n"
        (first, second) = rows_of_csv(self.written("csv", [], text).read_bytes())
        self.assertEqual(("T", stored), (first["types"], unhexed(first["a"])))
        self.assertEqual(("n" * 20_000, " ".join(["NULL"] * 19_999)), (second["types"], second["more"]))
        values = [line["values"] for line in objects_of(self.written("jsonl", [], text).read_bytes())[1:3]]
        self.assertEqual([[stored.decode()], [None] * 20_000], values)

    def test_progress_on_a_terminal(self) -> None:
        ours, theirs = pty.openpty()
        done = subprocess.run([sys.executable, str(ROWS), "--to", "jsonl", "-"], input=SHOW, stdout=subprocess.PIPE, stderr=theirs)
        os.close(theirs)
        shown = os.read(ours, 4096)
        os.close(ours)
        self.assertEqual(0, done.returncode)
        self.assertRegex(shown, rb"\r2 rows, 0 s|\r0 rows, 0 s")


if __name__ == "__main__":
    unittest.main()
