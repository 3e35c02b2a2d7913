#!/usr/bin/env python3
"""Writes the evidence of the worked cases into data/, each file byte by byte as its name and the comment here say.

`data/cases` is written by hand, and so are the texts in it; nothing here computes an answer. A new piece of evidence is
a line or two below, or a file from anywhere else.
"""

from pathlib import Path

DATA = Path(__file__).resolve().parent / "data"


def placed(*pieces, size=0):
    """Zeros with these pieces at their places."""
    size = max([size] + [at + len(piece) for at, piece in pieces])
    made = bytearray(size)
    for at, piece in pieces:
        made[at : at + len(piece)] = bytes(piece)
    return bytes(made)


def changed(bytes_, *changes):
    """The same with these bytes at these places."""
    made = bytearray(bytes_)
    for at, byte in changes:
        made[at] = byte
    return bytes(made)


def write(name, database, wal=None, journal=None):
    """A database, and what lies beside it."""
    (DATA / f"{name}.db").write_bytes(database)
    if wal is not None:
        (DATA / f"{name}.db-wal").write_bytes(wal)
    if journal is not None:
        (DATA / f"{name}.db-journal").write_bytes(journal)


# ---- databases of 512-byte pages

HEADER = [(0, b"SQLite format 3\0"), (16, [2, 0, 1, 1, 0, 64, 32, 32])]

# Two pages: a table `t` with the rows 1 ann 10, 2 bob 20, 3 cy NULL.
PLAIN = placed(
    *HEADER,
    (27, [2, 0, 0, 0, 2]),
    (43, [1, 0, 0, 0, 4]),
    (59, [1]),
    (95, [2]),
    (100, [13, 0, 0, 0, 1, 1, 190, 0, 1, 190]),
    (446, [64, 1, 6, 23, 15, 15, 1, 113]),
    (454, b"tablett\x02CREATE TABLE t(a INTEGER PRIMARY KEY,b TEXT,c INT)"),
    (512, [13, 0, 0, 0, 3, 1, 228, 0, 1, 246, 1, 236, 1, 228]),
    (996, [6, 3, 4, 0, 17, 0, 99, 121]),
    (1004, [8, 2, 4, 0, 19, 1, 98, 111, 98, 20]),
    (1014, [8, 1, 4, 0, 19, 1, 97, 110, 110, 10]),
)

# One page without a table, as SQLite first writes it.
EMPTY = placed(*HEADER, (27, [1, 0, 0, 0, 1]), (95, [1]), (100, [13, 0, 0, 0, 0, 2, 0, 0]), size=512)

# The second row deleted: its cell is a freeblock.
DELETED = changed(PLAIN, (513, 1), (514, 236), (516, 2), (523, 228), (1004, 0), (1005, 0), (1006, 0), (1007, 10))

# A fourth row, 4 dee 40, in the place of the second.
REPLACED = changed(PLAIN, (523, 228), (525, 236), (1005, 4), (1010, 100), (1011, 101), (1012, 101), (1013, 40))

# Five pages: the only row of a table `u` spills to the last three.
SPILLED = placed(
    (0, PLAIN[:100]),
    (31, [5]),
    (100, [13, 0, 0, 0, 1, 1, 223, 0, 1, 223]),
    (479, [31, 1, 6, 23, 15, 15, 1, 47]),
    (487, b"tableuu\x02CREATE TABLE u(b)"),
    (512, [13, 0, 0, 0, 1, 1, 210, 0, 1, 210]),
    (978, [139, 97, 1, 3, 151, 72]),
    (984, [85] * 36),
    (1020, [0, 0, 0, 3, 0, 0, 0, 4]),
    (1028, [85] * 508),
    (1536, [0, 0, 0, 5]),
    (1540, [85] * 508),
    (2052, [85] * 450),
    size=2560,
)

# The same without its row: the bytes of the cell stay, and nothing leads to the last three pages.
UNSPILLED = changed(SPILLED, (516, 0), (517, 2), (518, 0), (520, 0), (521, 0))

FIRST, ROWS = PLAIN[:512], PLAIN[512:]


# ---- write-ahead logs


def sums(big, carried, piece):
    """The checksum of a log continued over a piece of whole pairs of words."""
    one, two = carried
    order = "big" if big else "little"
    for at in range(0, len(piece), 8):
        one = (one + int.from_bytes(piece[at : at + 4], order) + two) % 2**32
        two = (two + int.from_bytes(piece[at + 4 : at + 8], order) + one) % 2**32
    return one, two


def words(*numbers):
    """Numbers of 4 bytes, big-endian."""
    return b"".join(number.to_bytes(4, "big") for number in numbers)


def log(big, *frames, page_size=512, salts=(1, 2)):
    """A log with these salts and frames: the page, the size where it ends a commit, and the image."""
    head = words(0x377F0683 if big else 0x377F0682, 3007000, page_size, 0, *salts)
    carried = sums(big, (0, 0), head)
    made = head + words(*carried)
    for page, size, image in frames:
        front = words(page, size)
        carried = sums(big, sums(big, carried, front), image)
        made += front + words(*salts) + words(*carried) + image
    return made


# ---- rollback journals


def segment(count, nonce):
    """The header of a segment: so many records, two pages before the transaction, sectors and pages of 512 bytes."""
    return bytes([217, 213, 5, 249, 32, 161, 99, 215]) + words(count, nonce, 2, 512, 512)


# Two segments: the first has page 2 of the plain database, the second its page 1 and then a record that doesn't fit.
JOURNAL = placed(
    (0, segment(1, 17)),
    (512, words(2)),
    (516, ROWS),
    (1028, words(17)),
    (1536, segment(2, 34)),
    (2048, words(1)),
    (2052, FIRST),
    (2564, words(34)),
    (2568, words(2)),
    size=3088,
)


def headers_and_sizes():
    write("plain", PLAIN)
    write("empty", EMPTY)
    write("encoding_2", changed(PLAIN, (59, 2)))
    write("encoding_3", changed(PLAIN, (59, 3)))
    write("encoding_4", changed(PLAIN, (59, 4)))
    write("usable_479", changed(PLAIN, (20, 33)))
    write("page_size_768", changed(PLAIN, (16, 3)))
    write("no_magic_100_bytes", changed(PLAIN, (0, 0))[:100])
    write("99_bytes", PLAIN[:99])
    write("no_bytes", b"")
    write("claims_9_pages", changed(PLAIN, (31, 9)))
    write("claims_9_pages_of_another_count", changed(PLAIN, (31, 9), (95, 1)))
    write("claims_no_size_100_bytes", changed(PLAIN, (31, 0))[:100])
    write("claims_no_size_1023_bytes", changed(PLAIN, (31, 0))[:1023])
    for size in (100, 511, 512, 1023):
        write(f"{size}_bytes", PLAIN[:size])
    write("claims_4278190082_pages", changed(PLAIN, (28, 255)))
    write("companions_of_no_bytes", PLAIN, b"", b"")
    write("no_magic_and_companions", changed(PLAIN, (0, 0)), b"", b"")
    (DATA / "another.db-wal").write_bytes(b"")


def logs():
    for name, big in (("little", False), ("big", True)):
        edits = log(big, (2, 2, DELETED[512:]), (2, 2, REPLACED[512:]))
        write(f"edits_{name}", PLAIN, edits)
        for at in (1000, 579, 31, 10):
            write(f"edits_{name}_byte_{at}", PLAIN, changed(edits, (at, edits[at] ^ 1)))
        for size in (0, 31, 32, 567, 568, 1103):
            write(f"edits_{name}_cut_at_{size}", PLAIN, edits[:size])
    write("checkpointed_whole", PLAIN, log(False, (1, 0, FIRST), (2, 2, ROWS)))
    write("table_made", EMPTY, log(False, (1, 0, FIRST), (2, 2, ROWS)))
    write("shrunk_and_grown", PLAIN, log(False, (1, 1, EMPTY), (1, 4, FIRST)))
    write("checkpointed_first", PLAIN, log(False, (2, 2, ROWS), (2, 2, DELETED[512:])))
    write("commit_of_2097153_pages", PLAIN, log(False, (2, 2097153, ROWS), (1, 0, FIRST)))
    write("page_1_of_zeros", PLAIN, log(False, (2, 0, DELETED[512:]), (1, 2, bytes(512))))
    write("pending", PLAIN, log(True, (2, 0, DELETED[512:]), (2, 0, ROWS), (1, 0, FIRST)))


def journals():
    for size in (28, 1031, 1032, 2567, 2568, 3088):
        write(f"journal_cut_at_{size}", DELETED, journal=JOURNAL[:size])
    for at in (600, 628):
        write(f"journal_byte_{at}", DELETED, journal=changed(JOURNAL, (at, 1)))
    zeroed = changed(JOURNAL, *((at, 0) for at in range(28)))
    for size in (1032, 27, 0):
        write(f"journal_zeroed_cut_at_{size}", DELETED, journal=zeroed[:size])
    write("journal_of_1024_byte_pages", DELETED, journal=changed(JOURNAL, (26, 4)))
    exchanged = JOURNAL[:2048] + JOURNAL[2568:] + JOURNAL[2048:2568]
    write("journal_with_records_exchanged", EMPTY + DELETED[512:], journal=exchanged)


def generations():
    """Logs that were begun again, with the salts 3 and 4, over one with the salts 1 and 2; and zeroed journals."""
    deleted, replaced = (2, 2, DELETED[512:]), (2, 2, REPLACED[512:])
    for name, big in (("little", False), ("big", True)):
        new = log(big, replaced, salts=(3, 4))
        old = log(big, deleted, replaced, deleted)
        restarted = new + old[568:]
        write(f"restarted_{name}", PLAIN, restarted)
    write("restarted_flipped", PLAIN, changed(restarted, (1200, restarted[1200] ^ 1)))
    write("restarted_other_magic", PLAIN, log(False, replaced, salts=(3, 4)) + old[568:])
    five = log(True, (1, 0, FIRST), deleted, (1, 0, FIRST), replaced, deleted)
    more = new + five[568:]
    write("restarted_more", PLAIN, more)
    write("restarted_salt", PLAIN, changed(more, (1651, 3)))
    zero = log(True, replaced, deleted, (0, 0, FIRST), deleted, replaced)
    write("restarted_page_0", PLAIN, new + zero[568:])
    write("log_of_three", PLAIN, changed(log(True, (1, 0, FIRST), deleted, replaced), (31, 0)))
    zeroed = bytes(28) + JOURNAL[28:1032] + words(1) + FIRST
    write("confirmed", PLAIN, journal=zeroed + words(17))
    write("confirmed_not", PLAIN, journal=zeroed + words(18))
    write("confirmed_twice", PLAIN, journal=zeroed + words(17) + 2 * (words(2) + ROWS + words(18)))
    write("confirmed_zeros", PLAIN, journal=bytes(512 + 3 * 520))


# Two pages in UTF-16le: a table `u` with the texts `aé😀`, and a half of a pair before a single byte.
UTF_16 = placed(
    (0, changed(PLAIN[:100], (59, 2))),
    (100, [13, 0, 0, 0, 1, 1, 199, 0, 1, 199]),
    (455, [55, 1, 6, 33, 17, 17, 1, 81]),
    (463, "tableuu".encode("utf-16le")),
    (477, [2]),
    (478, "CREATE TABLE u(b)".encode("utf-16le")),
    (512, [13, 0, 0, 0, 2, 1, 237, 0, 1, 244, 1, 237]),
    (1005, [5, 2, 2, 19, 0, 216, 65]),
    (1012, [10, 1, 2, 29, 97, 0, 233, 0, 61, 216, 0, 222]),
)


def tables():
    write("round_table", placed((0, changed(FIRST, (31, 3))), (512, [5, 0, 0, 0, 1, 1, 251, 0, 0, 0, 0, 3, 1, 251]), (1019, [0, 0, 0, 2, 1]), (1024, ROWS)))
    write("overlapping_cells", changed(PLAIN, (523, 232)))
    write("spilled_cut_short", changed(SPILLED, (1539, 0)))
    write("spilled_and_round", changed(SPILLED, (2051, 4)))
    write("table_without_a_tree", changed(PLAIN, (461, 0)))
    write("root_that_is_not_held", changed(PLAIN, (461, 9)))
    write("text_of_no_table", changed(PLAIN, (462, 68)))
    write("column_that_came_later", changed(PLAIN, (507, 44), (508, 100), (509, 32), (510, 32)))
    write("utf_16_little", UTF_16)
    write("utf_16_big", changed(UTF_16, (59, 3)))


def remains():
    """Bytes in the gap of the plain table's page that read as rows."""
    inner = [6, 9, 2, 20, 2, 7, 2, 0]
    write("start_inside_a_candidate", changed(PLAIN, *((912 + at, byte) for at, byte in enumerate(inner))))
    write("record_into_a_cell", changed(PLAIN, *((992 + at, byte) for at, byte in enumerate(inner[:4]))))


def spills():
    """A deleted row whose overflow pages still stand; its chain goes round, meets a page in use, or serves another row too."""
    write("spilled_deleted", UNSPILLED)
    write("spilled_deleted_round", changed(UNSPILLED, (1539, 3)))
    write("spilled_deleted_into_use", changed(UNSPILLED, (1539, 2)))
    other = placed((0, UNSPILLED), (812, [139, 97, 2, 3, 151, 72]), (818, [68] * 36), (854, [0, 0, 0, 3]))
    write("spilled_deleted_twice", other)
    write("spilled_deleted_later", SPILLED, log(True, (2, 5, UNSPILLED[512:1024])))


def nodes():
    inner = [5, 0, 0, 0, 1, 1, 251, 0, 0, 0, 0, 3, 1, 251]
    write(
        "inner_table",
        placed((0, changed(FIRST, (31, 3))), (512, inner), (1019, [0, 0, 0, 3, 1]), (1024, ROWS)),
    )
    write("leaf_index", changed(PLAIN, (512, 10), (524, 1), (525, 0), (768, 136), (769, 16), (812, 7)))
    inner_index = [(512, 2), (513, 1), (514, 236), (1004, 1), (1005, 246), (1006, 0), (1007, 10)]
    write("inner_index", changed(PLAIN, *inner_index, (1014, 0), (1015, 0), (1016, 0), (1017, 4)))
    write("payload_too_long", changed(PLAIN, (996, 136), (997, 128), (998, 128), (999, 128), (1000, 0)))
    write("cell_outside", changed(PLAIN, (525, 255)))
    write("bad_flag", changed(PLAIN, (512, 12)))
    write("bad_array", changed(PLAIN, (516, 253)))
    write("spilled", SPILLED)
    write("largest_page", placed((0, changed(EMPTY, (16, 0), (17, 1), (105, 0))), size=65536))


def histories():
    """Rowids below 0 and twice, a table that goes and comes again with another root, and a table with an index's tree."""
    write("rowid_twice", changed(PLAIN, (1005, 1)))
    lowest = placed((0, PLAIN[:512]), (512, [13, 0, 0, 0, 1, 1, 238, 0, 1, 238]), (1006, [8, 192, 128, 128, 128, 128, 128, 128, 128, 0, 4, 0, 19, 1, 122, 111, 101, 5]), size=1024)
    write("lowest_rowid", lowest)
    moved = changed(FIRST, (31, 3), (461, 3))
    write("table_again", PLAIN, log(False, (1, 2, EMPTY), (1, 0, moved), (3, 3, REPLACED[512:])))
    index = placed((0, PLAIN[:512]), (512, [10, 0, 0, 0, 1, 1, 247, 0, 1, 247]), (1015, [8, 4, 9, 19, 1, 97, 110, 110, 10]), size=1024)
    write("index_in_place_of_a_table", index)


def labels():
    free = (0, changed(PLAIN, (31, 4), (35, 3), (39, 2)))
    write("free_pages", placed(free, (1024, words(0, 1, 4)), (1536, ROWS)))
    write("free_pages_too_many", placed(free, (1024, words(0, 127, 4)), (1536, ROWS)))
    write("free_pages_round", placed(free, (1024, words(3, 1, 4)), (1536, ROWS)))
    write("pointer_map_on_rows", changed(PLAIN, (55, 2)))
    write("cell_on_freeblock", changed(DELETED, (516, 3), (524, 1), (525, 236)))
    write("spilled_too_long", placed((0, changed(SPILLED, (31, 6), (2051, 6))), size=3072))


if __name__ == "__main__":
    headers_and_sizes()
    logs()
    journals()
    generations()
    nodes()
    tables()
    histories()
    labels()
    remains()
    spills()
