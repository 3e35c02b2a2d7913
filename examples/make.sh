#!/bin/sh
# Makes the seven small cases of this folder anew, with the stock command line of SQLite (3.40 or later):
#
#     sh make.sh FOLDER
#
# Each session leaves its write-ahead log or its journal beside the database, as a program does that was cut off. The
# salts of a log and the nonces of a journal are drawn at random, so no two runs give the same bytes.
set -eu

folder=${1:?usage: sh make.sh FOLDER}
if ! command -v sqlite3 >/dev/null; then
    echo "make.sh: the command sqlite3 isn't here; on Debian: apt-get install sqlite3" >&2
    exit 1
fi
mkdir -p "$folder"
for case in chat restarted checkpointed interrupted stock stations removed; do
    rm -f "$folder/$case".db*
done

# A session on a database. Its answers, such as the journal's mode, aren't of interest.
session() {
    sqlite3 -bail "$folder/$1" >/dev/null
    rm -f "$folder/$1-shm"
}

begin() {
    session "$1" <<'SQL'
PRAGMA page_size = 1024;
CREATE TABLE person(id INTEGER PRIMARY KEY, name TEXT);
CREATE TABLE message(id INTEGER PRIMARY KEY, sender INTEGER, sent TEXT, body TEXT);
INSERT INTO person VALUES (1, 'Ada'), (2, 'Ben'), (3, 'Cleo');
INSERT INTO message VALUES (1, 1, '2026-11-02 08:15', 'Is the parcel in?');
INSERT INTO message VALUES (2, 2, '2026-11-02 08:17', 'Not yet. I will write when it is.');
PRAGMA journal_mode = WAL;
SQL
}

# What both chats go through first, each change a commit of its own, with a log that is left as it is.
four_changes() {
    cat <<'SQL'
.dbconfig no_ckpt_on_close on
PRAGMA wal_autocheckpoint = 0;
INSERT INTO message VALUES (3, 2, '2026-11-02 11:40', 'It is here. Locker 17, code 4402.');
INSERT INTO message VALUES (4, 1, '2026-11-02 11:41', 'On my way.');
UPDATE message SET body = 'It is here. Ask at the desk.' WHERE id = 3;
DELETE FROM message WHERE id = 4;
SQL
}

# Two further changes.
six_changes() {
    four_changes
    cat <<'SQL'
BEGIN;
INSERT INTO person VALUES (4, 'Dana');
INSERT INTO message VALUES (5, 4, '2026-11-02 19:05', 'Who has the key?');
COMMIT;
DELETE FROM message WHERE sender = 2;
SQL
}

# A chat of which messages were edited and deleted, with six commits that are not yet in the database file.
begin chat.db
six_changes | session chat.db

# The same chat, whose log was checkpointed and begun again: behind the frames of its two new commits stand frames of
# the older run.
begin restarted.db
session restarted.db <<SQL
$(four_changes)
PRAGMA wal_checkpoint(RESTART);
INSERT INTO message VALUES (5, 3, '2026-11-03 07:30', 'Parcel collected.');
DELETE FROM message WHERE id = 1;
SQL

# The chat of six changes, whose log was checkpointed and left as it was: the database file holds what the last commit
# left.
begin checkpointed.db
session checkpointed.db <<SQL
$(six_changes)
PRAGMA wal_checkpoint(PASSIVE);
SQL

# Sixty notices in a database with a rollback journal. A session overwrites each of them and is cut off before its
# commit: both files are copied while it runs. Its cache is so small that pages are written to the database at once.
session office.db <<'SQL'
PRAGMA page_size = 512;
CREATE TABLE notice(id INTEGER PRIMARY KEY, sent TEXT, body TEXT);
WITH RECURSIVE count(i) AS (SELECT 1 UNION ALL SELECT i + 1 FROM count WHERE i < 60)
INSERT INTO notice SELECT i, printf('2026-11-%02d 08:%02d', 1 + i / 4, i), 'Parcel ' || i || ' is in locker ' || (i * 37 % 90 + 10) || '.' FROM count;
SQL
session office.db <<SQL
PRAGMA cache_size = 1;
BEGIN;
UPDATE notice SET body = 'removed';
.system cp "$folder/office.db" "$folder/interrupted.db"
.system cp "$folder/office.db-journal" "$folder/interrupted.db-journal"
ROLLBACK;
SQL
rm -f "$folder/office.db"

# A stock of things: values of every kind, an index, a table without rowids, a column that came later, and a row that is
# too long for its page.
session stock.db <<'SQL'
PRAGMA page_size = 512;
CREATE TABLE item(id INTEGER PRIMARY KEY, name TEXT, weight REAL, count INT, picture BLOB);
CREATE INDEX item_name ON item(name);
CREATE TABLE shelf(code TEXT PRIMARY KEY, room) WITHOUT ROWID;
CREATE TABLE manual(item, body TEXT);
INSERT INTO item VALUES (1, 'lamp', 0.75, 12, x'ffd8ff'), (2, 'Bob''s chair', 4, -1, NULL), (3, NULL, 1e-3, 9000000000, x'');
INSERT INTO shelf VALUES ('b2', 'cellar'), ('a1', 7);
INSERT INTO manual VALUES (1, printf('%.*c', 700, 'x')), (2, 'none');
ALTER TABLE item ADD COLUMN sold TEXT;
INSERT INTO item VALUES (4, 'rug' || char(10) || 'red', 3.5, 2, NULL, '2026-11-05');
SQL

# Texts in UTF-16.
session stations.db <<'SQL'
PRAGMA encoding = 'UTF-16le';
PRAGMA page_size = 512;
CREATE TABLE station(id INTEGER PRIMARY KEY, name TEXT);
INSERT INTO station VALUES (1, 'Zürich HB'), (2, '東京'), (3, CAST(x'00d84100' AS TEXT));
SQL

# A notebook without a log, whose deleted bytes aren't overwritten: a note was deleted, and the table of plans dropped.
session removed.db <<'SQL'
PRAGMA page_size = 512;
PRAGMA secure_delete = OFF;
CREATE TABLE note(id INTEGER PRIMARY KEY, who TEXT, what TEXT);
CREATE TABLE plan(id INTEGER PRIMARY KEY, day TEXT, what TEXT);
INSERT INTO note VALUES (1, 'Ada', 'Bring the ladder.'), (2, 'Ben', 'The gate is open until nine.'), (3, 'Cleo', 'Safe: 31-07-22.'), (4, 'Ada', 'Thanks.');
INSERT INTO plan VALUES (1, 'Monday', 'Call the bank.'), (2, 'Tuesday', 'Move the boxes.');
DELETE FROM note WHERE id = 3;
DROP TABLE plan;
SQL
