"""Makes the evidence that the two benchmarks run over: crafted logs, and what SQLite itself writes.

A crafted log is written in seconds: the two sums of the checksum are linear, so what a whole page does to them is two
numbers each, found once for each content of a page and then used for every frame that has it.
"""

import os
import sqlite3
import struct
from pathlib import Path

WORD = 2**32
PAGE = 512
SALTS = (0x5A49, 0x4E43)


def summed(content, first=0, second=0):
    """The two sums of a log's checksum over big-endian words, continued from `first` and `second`."""
    for high, low in struct.iter_unpack(">II", content):
        first = (first + high + second) % WORD
        second = (second + low + first) % WORD
    return first, second


class Sums:
    """What a piece of content does to the two sums: the sums after it are a linear function of those before it."""

    def __init__(self, content):
        self.start = summed(content)
        nothing = bytes(len(content))
        self.first = summed(nothing, 1, 0)
        self.second = summed(nothing, 0, 1)

    def after(self, first, second):
        return tuple(
            (start + first * one + second * two) % WORD
            for start, one, two in zip(self.start, self.first, self.second)
        )


def header(page_size, pages):
    """The first 100 bytes of a database without tables, whose two counters agree on its size."""
    head = bytearray(100)
    head[0:16] = b"SQLite format 3\0"
    head[16:18] = (1 if page_size == 65536 else page_size).to_bytes(2, "big")
    head[18:24] = bytes((2, 2, 0, 64, 32, 32))
    for place, word in ((24, 1), (28, pages), (44, 4), (56, 1), (92, 1), (96, 3040001)):
        head[place : place + 4] = word.to_bytes(4, "big")
    return bytes(head)


def leaf(page_size, number):
    """An empty leaf of a table, behind the database's header on page 1."""
    front = header(page_size, 1) if number == 1 else b""
    node = b"\x0d\0\0\0\0" + (page_size % 65536).to_bytes(2, "big") + b"\0"
    return (front + node).ljust(page_size, b"\0")


def write_database(path, pages, page_size=PAGE):
    """A database of empty pages."""
    page = leaf(page_size, 2)
    with open(path, "wb") as file:
        file.write((header(page_size, pages) + leaf(page_size, 1)[100:]))
        for _ in range(pages - 1):
            file.write(page)


def write_log(path, frames, page_size=PAGE):
    """A log in good order whose frames are pairs: the number of the page, and the size where the frame is a commit. Each
    frame's page is an empty leaf."""
    page = leaf(page_size, 2)
    over_page = Sums(page)
    head = struct.pack(">IIIIII", 0x377F0683, 3007000, page_size, 0, *SALTS)
    first, second = summed(head)
    with open(path, "wb") as file:
        file.write(head + struct.pack(">II", first, second))
        for number, size in frames:
            front = struct.pack(">II", number, size)
            first, second = over_page.after(*summed(front, first, second))
            file.write(front + struct.pack(">IIII", *SALTS, first, second) + page)


def craft(path, pages, frames):
    """A database of so many empty pages, and a log of these frames."""
    write_database(path, pages)
    write_log(f"{path}-wal", frames)


def older_runs(path, runs, length, page_size=PAGE):
    """A database of one page, and a log in good order whose frames are all of older generations: so many runs of so many
    frames that continue one another, each frame a commit of an empty leaf. Each run has salts of its own."""
    write_database(path, 1, page_size)
    page = leaf(page_size, 2)
    over_page = Sums(page)
    front = struct.pack(">II", 2, 2)
    head = struct.pack(">IIIIII", 0x377F0683, 3007000, page_size, 0, *SALTS)
    with open(f"{path}-wal", "wb") as file:
        file.write(head + struct.pack(">II", *summed(head)))
        for run in range(runs):
            first, second = run, length
            for _ in range(length):
                file.write(front + struct.pack(">IIII", SALTS[0] + 1 + run, SALTS[1], first, second) + page)
                first, second = over_page.after(*summed(front, first, second))


def filled(path, pages, content, page_size=PAGE):
    """A database that says it has one page, and behind that so many pages which nothing uses: pieces of this content, each
    from another place of it on."""
    with open(path, "wb") as file:
        file.write(header(page_size, 1) + leaf(page_size, 1)[100:])
        for page in range(pages):
            at = page * 7919 % (len(content) - page_size)
            file.write(content[at : at + page_size])


def varint(number):
    """A number's spelling of one to five bytes."""
    spelled = [number & 127]
    while number >= 128:
        number >>= 7
        spelled.append(128 | number & 127)
    return bytes(reversed(spelled))


def node(page_size, kind, pointers, pieces, front=b"", right=b""):
    """A b-tree page: these cell pointers, and pieces at their places."""
    head = bytes((kind, 0, 0)) + len(pointers).to_bytes(2, "big") + min(pointers).to_bytes(2, "big") + b"\0" + right
    page = bytearray(front + head + b"".join(pointer.to_bytes(2, "big") for pointer in pointers)).ljust(page_size, b"\0")
    for at, piece in pieces:
        page[at : at + len(piece)] = piece
    return bytes(page)


def share_chain(path, cells, chain, page_size=4096):
    """A database whose table `t` has so many cells, all of which name one chain of so many overflow pages: one page fewer
    than each of them needs."""
    room = page_size - 4
    local = (page_size - 12) * 32 // 255 - 23
    text = b"CREATE TABLE t(a)"
    record = bytes((6, 23, 15, 15, 1, 13 + 2 * len(text))) + b"tablett\x02" + text
    entry = varint(len(record)) + b"\x01" + record
    leaves = -(-cells // 1500)
    first = 3 + leaves
    row = varint(local + (chain + 1) * room) + b"\x01" + bytes(local) + first.to_bytes(4, "big")
    at = page_size - len(row)
    with open(path, "wb") as file:
        place = page_size - len(entry)
        file.write(node(page_size, 13, [place], [(place, entry)], header(page_size, first - 1 + chain)))
        inner = [(page_size - 6 * (i + 1), (3 + i).to_bytes(4, "big") + b"\x01") for i in range(leaves - 1)]
        right = (2 + leaves).to_bytes(4, "big")
        if inner:
            file.write(node(page_size, 5, [at_ for at_, _ in inner], inner, right=right))
        else:
            file.write(node(page_size, 5, [page_size - 6], [(page_size - 6, right + b"\x01")], right=bytes(4)))
        for i in range(leaves):
            file.write(node(page_size, 13, [at] * min(1500, cells - 1500 * i), [(at, row)]))
        for i in range(chain):
            file.write((first + i + 1 if i + 1 < chain else 0).to_bytes(4, "big").ljust(page_size, b"\0"))


def overlap_cells(path, cells, page_size=65536):
    """A database whose table `t` has so many cells, 10,900 a leaf. Each begins at one of 3,600 places in no order, and holds
    half of its page, so that the cells of a leaf lie on one another."""
    text = b"CREATE TABLE t(a)"
    record = bytes((6, 23, 15, 15, 1, 13 + 2 * len(text))) + b"tablett\x02" + text
    entry = varint(len(record)) + b"\x01" + record
    leaves = -(-cells // 10_900)
    first = 21_810
    pointers = [first + i * 7919 % 3600 * 3 for i in range(10_900)]
    # From each place on stand a length of 32,769 bytes and a rowid, both of three bytes.
    piece = bytes((0x82, 0x80, 0x01)) * 3602
    with open(path, "wb") as file:
        place = page_size - len(entry)
        file.write(node(page_size, 13, [place], [(place, entry)], header(page_size, 2 + leaves)))
        inner = [(page_size - 5 * (i + 1), (3 + i).to_bytes(4, "big") + b"\x01") for i in range(leaves)]
        right = (2 + leaves).to_bytes(4, "big")
        file.write(node(page_size, 5, [at for at, _ in inner[:-1]] or [page_size - 5], inner[:-1], right=right))
        leaf_page = node(page_size, 13, pointers, [(first, piece)])
        for _ in range(leaves):
            file.write(leaf_page)


def remove(path):
    for ending in ("", "-wal", "-shm", "-journal"):
        Path(f"{path}{ending}").unlink(missing_ok=True)


def session(path, page_size, statements):
    """A session of SQLite over a database with a log that is never checkpointed; what it wrote stays beside the database."""
    remove(path)
    work = f"{path}.work"
    remove(work)
    made = sqlite3.connect(work, isolation_level=None)
    made.execute(f"PRAGMA page_size = {page_size}")
    statements(made)
    # While a connection is open, the log stands as it is: both files are copied before it is closed.
    for ending in ("", "-wal"):
        if os.path.exists(work + ending):
            Path(f"{path}{ending}").write_bytes(Path(f"{work}{ending}").read_bytes())
    made.close()
    remove(work)


def one_row_commits(count):
    """A table of two columns, and then so many transactions that each insert one row."""

    def statements(made):
        made.execute("PRAGMA journal_mode = WAL")
        made.execute("PRAGMA synchronous = OFF")
        made.execute("PRAGMA wal_autocheckpoint = 0")
        made.execute("CREATE TABLE entry(id INTEGER PRIMARY KEY, body TEXT)")
        for i in range(count):
            made.execute("INSERT INTO entry(body) VALUES (?)", (f"entry {i} of the journal of a day",))

    return statements


def many_tables(tables, commits):
    """So many tables, each but the first of a long text, and then so many transactions that each insert a row into the first."""

    def statements(made):
        made.execute("PRAGMA synchronous = OFF")
        made.execute("BEGIN")
        for number in range(tables):
            columns = ", ".join(f"column_{place}_of_table_{number} TEXT" for place in range(1 if number == 0 else 8))
            made.execute(f"CREATE TABLE table_{number}({columns})")
        made.execute("COMMIT")
        keep_log(made)
        for number in range(commits):
            made.execute("INSERT INTO table_0 VALUES (?)", (f"row {number}",))

    return statements


def keep_log(made):
    """Lets what is committed from here on stand in a log that is never checkpointed."""
    made.execute("PRAGMA journal_mode = WAL")
    made.execute("PRAGMA wal_autocheckpoint = 0")


def busy(rows, commits, changed, tables=("message", "person", "call", "place")):
    """A database of about 250 bytes a row in these tables, the first with an index, and then a log of so many commits
    that each change some rows."""

    def statements(made):
        made.execute("PRAGMA synchronous = OFF")
        made.execute("PRAGMA journal_mode = OFF")
        made.execute("BEGIN")
        for table in tables:
            made.execute(f"CREATE TABLE {table}(id INTEGER PRIMARY KEY, sent INTEGER, name TEXT, body TEXT, extra BLOB)")
            made.executemany(
                f"INSERT INTO {table}(sent, name, body, extra) VALUES (?, ?, ?, ?)",
                (
                    (1700000000 + i * 37, f"name {i * 7919 % 100003}", f"the body of row {i} of {table}, " * 4, bytes((i * j) % 251 for j in range(40)))
                    for i in range(rows // len(tables))
                ),
            )
        made.execute("CREATE INDEX message_name ON message(name)")
        made.execute("COMMIT")
        keep_log(made)
        for commit in range(commits):
            made.execute("BEGIN")
            for j in range(changed):
                row = (commit * changed + j) * 7919 % (rows // len(tables)) + 1
                table = tables[j % len(tables)]
                if j % 5 == 0:
                    made.execute(f"DELETE FROM {table} WHERE id = ?", (row,))
                else:
                    made.execute(f"UPDATE {table} SET body = body || ? WHERE id = ?", (f" edited {commit}", row))
            made.execute("COMMIT")

    return statements


def edits(rows, commits, changed):
    """A database of one table of about 240 bytes a row, and then a log of so many commits that each write a number of some
    rows anew where it stands, so that no page but leaves changes."""

    def statements(made):
        made.execute("PRAGMA synchronous = OFF")
        made.execute("PRAGMA journal_mode = OFF")
        made.execute("BEGIN")
        made.execute("CREATE TABLE message(id INTEGER PRIMARY KEY, sent INTEGER, name TEXT, body TEXT, extra BLOB)")
        made.executemany(
            "INSERT INTO message(sent, name, body, extra) VALUES (?, ?, ?, ?)",
            (
                (1700000000 + i * 37, f"name {i * 7919 % 100003}", f"the body of row {i} of message, " * 5, bytes((i * j) % 251 for j in range(40)))
                for i in range(rows)
            ),
        )
        made.execute("COMMIT")
        keep_log(made)
        for commit in range(commits):
            made.execute("BEGIN")
            for j in range(changed):
                made.execute("UPDATE message SET sent = sent + 1 WHERE id = ?", ((commit * changed + j) * 7919 % rows + 1,))
            made.execute("COMMIT")

    return statements


def freelist(rows, commits, vacuum=False):
    """A database of rows with a payload of 350 bytes, with full auto-vacuum where it is asked for, and then a log of so many
    commits of which each deletes rows or inserts some again, so that each takes pages from the freelist or gives some to it."""

    def statements(made):
        made.execute("PRAGMA synchronous = OFF")
        made.execute("PRAGMA journal_mode = OFF")
        if vacuum:
            made.execute("PRAGMA auto_vacuum = FULL")
        made.execute("BEGIN")
        made.execute("CREATE TABLE entry(id INTEGER PRIMARY KEY, body BLOB)")
        made.executemany("INSERT INTO entry(id, body) VALUES (?, ?)", ((i, bytes((i * j) % 251 for j in range(350))) for i in range(1, rows + 1)))
        made.execute("COMMIT")
        keep_log(made)
        for commit in range(commits):
            first = commit // 2 * 7919 % (rows - 8) + 1
            made.execute("BEGIN")
            for row in range(first, first + 8):
                if commit % 2:
                    made.execute("INSERT OR REPLACE INTO entry(id, body) VALUES (?, ?)", (row, bytes((commit + row) % 251 for _ in range(350))))
                else:
                    made.execute("DELETE FROM entry WHERE id = ?", (row,))
            made.execute("COMMIT")

    return statements


def chains(rows, commits, changed):
    """A database of rows whose payload goes on over some five overflow pages of 1024 bytes, and then a log of so many commits
    that each write some rows anew, so that their chains are other pages or the same in another order."""

    def body(number):
        return bytes((number * j) % 251 for j in range(4000 + number * 7919 % 2000))

    def statements(made):
        made.execute("PRAGMA synchronous = OFF")
        made.execute("PRAGMA journal_mode = OFF")
        made.execute("BEGIN")
        made.execute("CREATE TABLE file(id INTEGER PRIMARY KEY, body BLOB)")
        made.executemany("INSERT INTO file(id, body) VALUES (?, ?)", ((row, body(row)) for row in range(1, rows + 1)))
        made.execute("COMMIT")
        keep_log(made)
        for commit in range(commits):
            made.execute("BEGIN")
            for j in range(changed):
                row = (commit * changed + j) * 7919 % rows + 1
                made.execute("UPDATE file SET body = ? WHERE id = ?", (body(row + commit), row))
            made.execute("COMMIT")

    return statements
