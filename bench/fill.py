"""The program that is measured, and stores for it."""
import os
import subprocess
import tempfile

TOP = os.path.realpath(f"{os.path.dirname(os.path.realpath(__file__))}/..")

BLOCK = 4096

# The number of an everyday store, which its data file has, too.
NUMBER = 7

FILL = """
CREATE TEMP TABLE number AS WITH RECURSIVE up (n) AS (SELECT 2 UNION ALL SELECT n + 1 FROM up WHERE n < {nodes})
  SELECT n, n < 2 + {dirs} AS is_dir, CASE WHEN {dirs} = 0 OR n < 2 + {dirs} THEN 1 ELSE 2 + n % {dirs} END AS dir FROM up WHERE n <= {nodes};
BEGIN;
INSERT INTO nodes SELECT n, CASE WHEN is_dir THEN 16877 ELSE 33188 END, 1000, 1000, 0,
  CASE WHEN is_dir THEN 0 ELSE {blocks} * 4096 END, 0, 0, 0, 0, 0, 0, dir, 0{counts} FROM number;
INSERT INTO entries SELECT n + 1, dir, CAST('n' || n AS BLOB), n FROM number;
UPDATE nodes SET subdirs = {dirs} WHERE node = 1;
UPDATE meta SET v = {nodes} + 1 WHERE k = 2;
UPDATE meta SET v = {nodes} + 2 WHERE k = 4;
UPDATE meta SET v = {nodes} WHERE k = 5;
{contents}COMMIT;
"""

# The counts that a row of `nodes` of an everyday store has beside others: its entries, its written blocks, its attributes.
COUNTS = ", NOT is_dir, CASE WHEN is_dir THEN 0 ELSE {blocks} END, 0"

# The contents of a plain store lie in `blocks`.
BLOCKS = """
CREATE TEMP TABLE place AS WITH RECURSIVE up (b) AS (SELECT 0 UNION ALL SELECT b + 1 FROM up WHERE b < {blocks})
  SELECT b FROM up WHERE b < {blocks};
INSERT INTO blocks SELECT n, b, randomblob(4096) FROM number, place WHERE NOT is_dir;
"""

# Those of an everyday store lie beside it. Its capacity is 1 TiB, and so many blocks of it are used.
PIECES = """
UPDATE meta SET v = 268435456 WHERE k = 13;
UPDATE meta SET v = ({nodes} - 1 - {dirs}) * {blocks} WHERE k = 14;
INSERT INTO meta VALUES (15, {number});
.import {rows} pieces
"""


def find_program():
    """The program that FUSEKEEP names, else that of dist/program."""
    named = os.environ.get("FUSEKEEP")
    return named or subprocess.run([f"{TOP}/dist/program"], stdout=subprocess.PIPE, text=True, check=True).stdout.strip()


def make_data_file(path, room, first, files, blocks):
    """Makes the data file of an everyday store with so many files, from this node on. Returns the path of the rows of its pieces."""
    writer, rows = f"{room}/pieces", f"{room}/rows"
    subprocess.run(["gcc", "-std=c11", "-O2", "-Wall", "-Wextra", "-o", writer, f"{TOP}/bench/pieces.c"], check=True)
    with open(rows, "wb") as file:
        subprocess.run([writer, path, *map(str, (NUMBER, first, files, blocks))], stdout=file, check=True)
    return rows


def make_store(path, nodes, dirs=0, blocks=0, profile="plain"):
    """Makes a store of so many nodes, the root and the directories included; without directories all nodes are in the root. Each
    file has so many blocks of 4 KiB."""
    shape = {"nodes": nodes, "dirs": dirs, "blocks": blocks}
    with tempfile.TemporaryDirectory(prefix="bench-") as room:
        if profile == "everyday":
            rows = make_data_file(f"{path}-data", room, 2 + dirs, nodes - 1 - dirs, blocks)
            version, counts, contents = 3, COUNTS.format(**shape), PIECES.format(**shape, number=NUMBER, rows=rows)
        else:
            version, counts, contents = 2, "", BLOCKS.format(**shape)
        with open(f"{TOP}/tests/stores/version-{version}.sql", encoding="utf-8") as new:
            text = new.read() + FILL.format(**shape, counts=counts, contents=contents)
        subprocess.run(["sqlite3", path], input=text, text=True, check=True)
    os.chmod(path, 0o600)
