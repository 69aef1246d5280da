"""The contents that a store has beside its tables, in the file STORE-data, as an everyday store of version 3 does."""
import os

BLOCK = 4096


def read_pieces(rows, node=None):
    """Of each piece that a store's tables list, or those of a node, its node, its first block and its bytes."""
    if not rows.execute("SELECT 1 FROM sqlite_schema WHERE name = 'pieces'").fetchone():
        return
    _, _, path = rows.execute("PRAGMA database_list").fetchone()
    contents = os.open(f"{path}-data", os.O_RDONLY)
    which, words = ("WHERE node = ?", (node,)) if node else ("", ())
    for owner, first, count, place in rows.execute(f"SELECT node, first, count, place FROM pieces {which}", words):
        yield owner, first, os.pread(contents, count * BLOCK, place * BLOCK) if place else bytes(count * BLOCK)
    os.close(contents)
