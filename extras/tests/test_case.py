"""Tests of zincstoat-case: what the page says against the program's answers, hostile names and values, what is cut, and the
page in a browser where there is one."""

from __future__ import annotations

import base64
import hashlib
import re
import shlex
import shutil
import sqlite3
import struct
import subprocess
import sys
import tempfile
import unittest
import zlib
from collections import Counter
from html.parser import HTMLParser
from pathlib import Path
from typing import Dict, List, Optional, Tuple

EXTRAS = Path(__file__).resolve().parent.parent
CASE = EXTRAS / "zincstoat-case"
PROGRAM = EXTRAS.parent / "crates/sx_main/out/sx_main"
EXAMPLES = EXTRAS.parent / "examples"
BROWSERS = ("chromium", "chromium-browser", "google-chrome")

USAGE, NO_PROGRAM, NO_OUTPUT, CHANGED = 64, 70, 73, 74

VOID = {"meta"}
HOSTILE = [
    "<script>alert(1)</script>",
    "</td></table><img src=x onerror=alert(1)>",
    "\"'><svg onload=alert(1)>",
    "</style><style>*{display:none}",
    "&lt;b&gt; &amp;",
    "<!-- \u202e right to left",
    "]]> \u2028",
]


def write(case: Path, page: Path, *words: str) -> subprocess.CompletedProcess[bytes]:
    """Runs the companion."""
    words = (str(case), str(page), *words) if "--program" in words else (str(case), str(page), "--program", str(PROGRAM), *words)
    return subprocess.run([sys.executable, str(CASE), *words], capture_output=True, timeout=60)


def printed_by(case: Path, *words: str) -> List[str]:
    """The lines that the program prints."""
    done = subprocess.run([str(PROGRAM), str(case), *words], capture_output=True, timeout=60, check=True)
    return done.stdout.decode().split("\n")[:-1]


def texts_in(lines: List[str]) -> List[str]:
    """The texts in the lines of rows, as they are printed."""
    return re.findall(r"(?<= )'(?:[^'\\]|\\.)*'", "\n".join(lines))


def shown(text: str) -> str:
    """A text as the page has it: what isn't seen stands by its number."""
    return re.sub("[\u2028\u202e]", lambda found: f"U+{ord(found[0]):04X}", text)


class Read(HTMLParser):
    """A page taken apart: its tags with what they say, and its texts by the tag that holds them. Raises where a tag that was
    opened isn't closed in its place."""

    def __init__(self, page: str):
        super().__init__(convert_charrefs=True)
        self.tags: List[Tuple[str, Dict[str, Optional[str]]]] = []
        self.open: List[str] = []
        self.whole: List[Tuple[str, str]] = []
        self.within: List[int] = []
        self.feed(page)
        self.close()
        if self.open:
            raise AssertionError(f"not closed: {self.open}")

    def handle_starttag(self, tag: str, attrs: List[Tuple[str, Optional[str]]]) -> None:
        self.tags.append((tag, dict(attrs)))
        if tag not in VOID:
            self.open.append(tag)
            self.within.append(len(self.whole))
            self.whole.append((tag, ""))

    def handle_startendtag(self, tag: str, attrs: List[Tuple[str, Optional[str]]]) -> None:
        self.tags.append((tag, dict(attrs)))

    def handle_endtag(self, tag: str) -> None:
        if not self.open or self.open.pop() != tag:
            raise AssertionError(f"closed without an opening: {tag}")
        self.within.pop()

    def handle_data(self, data: str) -> None:
        for place in self.within[2:]:
            tag, text = self.whole[place]
            self.whole[place] = tag, text + data

    def of(self, *tags: str) -> List[str]:
        """The texts within these tags, with those of the tags in them."""
        return [text for tag, text in self.whole if tag in tags and text]


class Pages(unittest.TestCase):
    """Pages over databases of many kinds."""

    def setUp(self) -> None:
        folder = tempfile.TemporaryDirectory()
        self.addCleanup(folder.cleanup)
        self.folder = Path(folder.name)

    def page_of(self, case: Path, *words: str) -> str:
        """The page of a case, where all goes well; it is well formed, and loads and runs nothing."""
        page = self.folder / f"page{len(list(self.folder.iterdir()))}.html"
        done = write(case, page, *words)
        self.assertEqual((0, b""), (done.returncode, done.stderr))
        text = page.read_text(encoding="utf-8")
        read = Read(text)
        tags = Counter(tag for tag, _ in read.tags)
        for tag in ("script", "img", "link", "iframe", "object", "embed", "form", "base", "foreignobject", "use", "image"):
            self.assertEqual(0, tags[tag], tag)
        self.assertEqual(1, tags["style"])
        for tag, told in read.tags:
            self.assertFalse([name for name in told if name.startswith("on") or name in ("style", "src", "xlink:href")], (tag, told))
            self.assertTrue((told.get("href") or "#").startswith("#"), told)
        (style,) = read.of("style")
        digest = base64.b64encode(hashlib.sha256(style.encode()).digest()).decode()
        policies = [told["content"] for tag, told in read.tags if told.get("http-equiv") == "Content-Security-Policy"]
        self.assertEqual([f"default-src 'none'; style-src 'sha256-{digest}'; base-uri 'none'; form-action 'none'"], policies)
        return text

    def test_what_the_program_prints_is_there(self) -> None:
        """The words of each run, its counts, the moments, the values and the hashes of the files."""
        for name in ("chat", "checkpointed", "removed", "stock", "interrupted", "stations"):
            case = EXAMPLES / f"{name}.db"
            read = Read(self.page_of(case, "--characters", "10000"))
            codes = read.of("code")
            texts = set(read.of("bdi"))
            moments = [line.split(" ")[0] for line in printed_by(case, "timeline")[3:]]
            commands = [f"zincstoat {case} {words}" for words in ("timeline", *(f"map at={moment}" for moment in moments), "carve at=all", "generations")]
            self.assertEqual(set(), set(commands) - set(codes))
            for ending in ("", "-wal", "-journal"):
                path = Path(f"{case}{ending}")
                if path.exists():
                    self.assertIn(hashlib.sha256(path.read_bytes()).hexdigest(), texts)
            for moment in moments:
                self.assertIn(printed_by(case, "map", f"at={moment}")[-1], read.of("pre"))
            connection = sqlite3.connect(f"file:{case}?mode=ro&immutable=1", uri=True)
            tables = [name for (name,) in connection.execute("SELECT name FROM sqlite_schema WHERE type = 'table'")]
            connection.close()
            for table in tables:
                shown = printed_by(case, "show", f"table={table}", f"at={moments[-1]}")
                self.assertIn(f"zincstoat {case} show table={table} at={moments[-1]}", codes)
                self.assertEqual(set(), set(texts_in(shown[1:])) - texts)
            for line in printed_by(case, "carve", "at=all")[:-1]:
                self.assertIn(line.split(" ")[1], texts)

    def test_pictures(self) -> None:
        """A cell for each page of each moment, with its bytes by group and its mark."""
        case = EXAMPLES / "checkpointed.db"
        read = Read(self.page_of(case))
        titles = [title for title in read.of("title") if title.startswith("page ")]
        moments = printed_by(case, "timeline")[3:]
        self.assertEqual(sum(int(line.split(" pages ")[1].split(" ")[0]) for line in moments), len(titles))
        self.assertEqual(sum(int(line.split(" ")[-1]) for line in moments), sum(", uncertain:" in title for title in titles))
        marked = [(tag, told) for tag, told in read.tags if tag == "rect" and told["class"] == "uncertain"]
        self.assertEqual(sum(", uncertain:" in title for title in titles), len(marked))
        for place, line in enumerate(moments):
            for number in range(1, 4):
                first = printed_by(case, "page", f"no={number}", f"at={line.split(' ')[0]}")[0]
                self.assertEqual(first.endswith(" uncertain"), f"page {number}, uncertain:" in titles[3 * place + number - 1], first)
        self.assertEqual("page 3: owned 92, slack 932 bytes: nodeheader, pointers, gap, 2 cell, freeblock", titles[-1])

    def test_bars_are_shares(self) -> None:
        """The parts of a cell fill it."""
        read = Read(self.page_of(EXAMPLES / "interrupted.db"))
        rects = [told for tag, told in read.tags if tag == "rect" and told["class"] in ("owned", "slack", "fault")]
        cells: Dict[Tuple[int, Optional[str]], float] = {}
        picture = 0
        for tag, told in read.tags:
            picture += tag == "svg"
            if tag == "rect" and told["class"] in ("owned", "slack", "fault"):
                place = picture, told["x"]
                cells[place] = cells.get(place, 0) + float(told["height"] or 0)
        self.assertGreater(len(rects), len(cells))
        self.assertEqual({14}, {round(high) for high in cells.values()})

    def make_hostile(self) -> Tuple[Path, List[str]]:
        """A database whose names and values are HTML, with deleted rows, and a table that no word can name."""
        case = self.folder / "a<b>&'\" .db"
        connection = sqlite3.connect(case, isolation_level=None)
        connection.execute("PRAGMA secure_delete = OFF")
        for place, text in enumerate(HOSTILE):
            name = text.replace('"', '""')
            connection.execute(f'CREATE TABLE "{name}"(id INTEGER PRIMARY KEY, "{name}", held)')
            connection.executemany(f'INSERT INTO "{name}" VALUES (?, ?, ?)', [(i, text, bytes([i, place])) for i in range(5)])
            connection.execute(f'DELETE FROM "{name}" WHERE id = 2')
        connection.execute("CREATE TABLE kinds(a, b)")
        connection.execute("INSERT INTO kinds VALUES (?, CAST(? AS TEXT))", (9e999, b"\xed\xa0\x80\xff\0<b>"))
        connection.execute("INSERT INTO kinds VALUES (?, ?)", (bytes(5000), "long" * 1000))
        connection.close()
        stored = case.read_bytes()
        self.assertIn(b"kinds", stored)
        return case, HOSTILE

    def test_hostile_evidence(self) -> None:
        case, hostile = self.make_hostile()
        text = self.page_of(case, "--history", hostile[0], "3")
        read = Read(text)
        texts = set(read.of("bdi"))
        for name in hostile:
            printed = printed_by(case, "show", f"table={name}")
            self.assertEqual(4, len(texts_in(printed[1:])))
            self.assertEqual(set(), set(map(shown, texts_in(printed[1:]))) - texts)
            self.assertEqual(2, read.of("th", "h3").count(shown(name)), name)
            self.assertIn(shown(f"zincstoat {shlex.quote(str(case))} show {shlex.quote(f'table={name}')} at=0"), read.of("code"))
        self.assertIn("'\\xed\\xa0\\x80\\xff\\x00<b>'", texts)
        self.assertIn(f"x'{'00' * 199} … cut: {10003 - 400} characters more (--characters)", texts)
        self.assertIn("real:7ff0000000000000", texts)
        self.assertGreater(sum("full" == one or one.startswith(("tail", "types", "lost")) for one in read.of("bdi")), 3)

    def test_what_is_cut_says_so(self) -> None:
        case = self.folder / "large.db"
        connection = sqlite3.connect(case, isolation_level=None)
        connection.executescript("PRAGMA page_size = 512; PRAGMA secure_delete = OFF; CREATE TABLE a(x); CREATE TABLE b(x); CREATE TABLE c(x); PRAGMA journal_mode = WAL")
        copies = [self.folder / "copy.db", self.folder / "copy.db-wal"]
        for i in range(6):
            connection.execute("BEGIN")
            connection.executemany("INSERT INTO a VALUES (?)", [(f"{i} {j} " * 20,) for j in range(50)])
            connection.execute("COMMIT")
        connection.execute("DELETE FROM a WHERE rowid % 3 = 1")
        for copy, ending in zip(copies, ("", "-wal")):
            shutil.copy(f"{case}{ending}", copy)
        connection.close()
        text = self.page_of(copies[0], "--moments", "2", "--pages", "5", "--tables", "2", "--rows", "3", "--candidates", "4", "--characters", "20")
        read = Read(text)
        notes = "\n".join(read.of("p"))
        timeline = printed_by(copies[0], "timeline")[3:]
        pages = timeline[-1].split(" pages ")[1].split(" ")[0]
        found = printed_by(copies[0], "carve", "at=all")[-1].split(" ")[1]
        for line in (
            f"Cut: 2 of {len(timeline)} moments are shown (--moments).",
            f"Cut: 5 of {pages} pages are shown (--pages).",
            "Cut: 2 of 3 tables are shown (--tables).",
            "Cut: 3 of 200 rows are shown (--rows).",
            f"Cut: 4 of {found} candidates are shown (--candidates).",
        ):
            self.assertIn(line, notes)
        self.assertEqual(2 * 5, sum(title.startswith("page ") for title in read.of("title")))
        self.assertIn("rows 200 faults 0", read.of("bdi"))
        self.assertLess(len(text), 40_000)

    def test_faults_are_shown(self) -> None:
        """A table with a damaged page, and a moment without a header."""
        case = self.folder / "damaged.db"
        connection = sqlite3.connect(case)
        connection.executescript("PRAGMA page_size = 512; CREATE TABLE a(x);")
        connection.executemany("INSERT INTO a VALUES (?)", [("text " * 20,) for _ in range(40)])
        connection.commit()
        connection.close()
        stored = bytearray(case.read_bytes())
        stored[3 * 512] = 7
        case.write_bytes(stored)
        read = Read(self.page_of(case))
        faults = [line for line in printed_by(case, "show", "table=a") if line.startswith("fault")]
        self.assertTrue(faults)
        self.assertEqual(set(), set(faults) - set(read.of("bdi")))
        self.assertTrue([told for tag, told in read.tags if tag == "rect" and told["class"] == "fault"])
        read = Read(self.page_of(EXTRAS.parent / "crates/sx_cases/data/page_1_of_zeros.db"))
        self.assertEqual(2, read.of("title").count("page 2: badhead") + read.of("title").count("page 1: badhead"))
        self.assertIn("the program printed 'refused: page 1 is unreadable at 1'; status 6", read.of("p"))

    def test_the_same_evidence_gives_the_same_page(self) -> None:
        case = EXAMPLES / "chat.db"
        self.assertEqual(self.page_of(case), self.page_of(case))

    def test_refusals(self) -> None:
        page = self.folder / "page.html"
        for case, status in ((self.folder / "nope.db", 2), (CASE, 3)):
            done = write(case, page)
            self.assertEqual(status, done.returncode, done.stderr)
            self.assertIn(b"refused: ", done.stderr)
            self.assertFalse(page.exists())
        page.write_bytes(b"evidence")
        self.assertEqual(NO_OUTPUT, write(EXAMPLES / "chat.db", page).returncode)
        self.assertEqual(b"evidence", page.read_bytes())
        other = self.folder / "other.html"
        self.assertEqual(NO_PROGRAM, write(EXAMPLES / "chat.db", other, "--program", str(self.folder / "nope")).returncode)
        self.assertEqual(USAGE, write(EXAMPLES / "chat.db", other, "--rows", "0").returncode)
        self.assertEqual(0, subprocess.run([sys.executable, str(CASE), "--help"], capture_output=True).returncode)

    def test_evidence_that_changes_and_runs_that_fail(self) -> None:
        """The page is written, says so, and the status isn't 0."""
        case = self.folder / "chat.db"
        shutil.copy(EXAMPLES / "chat.db", case)
        program = self.folder / "program"
        for name, line, status, words in (
            ("changed", f'[ "$2" = generations ] && echo >>"{case}"', CHANGED, "Changed while it was read: database."),
            ("failed", '[ "$2" = carve ] && exit 11', 11, "there is no text; status 11"),
        ):
            program.write_text(f'#!/bin/sh\n{line}\nexec "{PROGRAM}" "$@"\n')
            program.chmod(0o755)
            page = self.folder / f"{name}.html"
            self.assertEqual(status, write(case, page, "--program", str(program)).returncode)
            self.assertIn(words, page.read_text(encoding="utf-8"))


def browser() -> Optional[str]:
    """A browser that can be run without a screen."""
    return next(filter(None, map(shutil.which, BROWSERS)), None)


def colours_of(picture: bytes) -> Counter[bytes]:
    """How many points of a picture in PNG have each colour: 8 bits a channel, lines one after the other."""
    chunks, at = {}, 8
    while at < len(picture):
        length, name = struct.unpack(">I4s", picture[at : at + 8])
        chunks[name] = chunks.get(name, b"") + picture[at + 8 : at + 8 + length]
        at += 12 + length
    wide, high, depth, kind = struct.unpack(">IIBB", chunks[b"IHDR"][:10])
    assert depth == 8 and kind in (2, 6)
    size = 3 if kind == 2 else 4
    stored = zlib.decompress(chunks[b"IDAT"])
    above = bytearray(wide * size)
    colours: Counter[bytes] = Counter()
    for row in range(high):
        start = row * (1 + wide * size)
        line = unfiltered(stored[start], bytearray(stored[start + 1 : start + 1 + wide * size]), above, size)
        colours.update(bytes(line[place : place + 3]) for place in range(0, len(line), size))
        above = line
    return colours


def unfiltered(kind: int, line: bytearray, above: bytearray, size: int) -> bytearray:
    """A line of a PNG as it was before its filter."""
    for place in range(len(line) if kind else 0):
        left = line[place - size] if place >= size else 0
        corner = above[place - size] if place >= size else 0
        up = above[place]
        if kind == 4:
            guess = left + up - corner
            near = min((abs(guess - one), order, one) for order, one in enumerate((left, up, corner)))[2]
        else:
            near = (left, up, (left + up) // 2)[kind - 1]
        line[place] = (line[place] + near) & 255
    return line


class Shown(unittest.TestCase):
    """The page in a browser."""

    def test_in_a_browser(self) -> None:
        """The style is taken by the page's own policy, the cells have their colours, and nothing is refused or run."""
        found = browser()
        if found is None:
            self.skipTest(f"none of {', '.join(BROWSERS)} is here: the page isn't opened in a browser")
        folder = Path(tempfile.mkdtemp())
        self.addCleanup(shutil.rmtree, folder, ignore_errors=True)
        case, page, picture = folder / "case.db", folder / "page.html", folder / "page.png"
        connection = sqlite3.connect(case)
        connection.execute('CREATE TABLE "<script>document.title=1</script>"(x)')
        connection.execute('INSERT INTO "<script>document.title=1</script>" VALUES (?)', ("<img src=x onerror=document.title=2>",))
        connection.commit()
        connection.close()
        self.assertEqual(0, write(case, page).returncode)
        words = [str(found), "--headless", "--no-sandbox", "--disable-gpu", "--hide-scrollbars", f"--user-data-dir={folder / 'profile'}"]
        shot = [*words, "--window-size=700,700", f"--screenshot={picture}", page.as_uri()]
        done = subprocess.run(shot, capture_output=True, timeout=60)
        if not picture.exists():
            self.skipTest(f"{found} takes no picture here: {done.stderr[-200:]!r}")
        colours = colours_of(picture.read_bytes())
        for colour in ("3f73b0", "e8b93b"):
            self.assertGreater(colours[bytes.fromhex(colour)], 50, colour)
        dumped = subprocess.run([*words, "--enable-logging=stderr", "--dump-dom", page.as_uri()], capture_output=True, timeout=60)
        self.assertIn(b"<title>case.db</title>", dumped.stdout)
        self.assertNotIn(b"CONSOLE", dumped.stderr)


if __name__ == "__main__":
    unittest.main()
