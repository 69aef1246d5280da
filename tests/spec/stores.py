"""Stores in files: runs over one, and what it holds afterwards."""
import os
import subprocess

from lib.device import run_program, store_of
from spec.ways import bytes_in

HERE = os.path.dirname(os.path.realpath(__file__))


def run_lives(program, way, work, new):
    """Runs the lives of a way, one after the other, over one new store, which these words make."""
    store = ["--db", store_of(work)] if way.in_file else []
    ran = []
    for life in way.lives:
        secs = str(life[0].secs if life else 1000)
        words = [program, "replay", *store, *([] if ran else new), "--at", secs, "-"]
        ran.append(run_program(words, bytes_in(life), way.pieces, work))
    return ran


def has_answers(work):
    """Whether the store's file has a table of answers."""
    sql = "SELECT count(*) FROM sqlite_schema WHERE name = 'answers'"
    return subprocess.run(["sqlite3", f"{work}/store", sql], capture_output=True, text=True, check=False).stdout != "0\n"


def look_into(work):
    """The content of the store's file, in lines."""
    with open(f"{HERE}/left.sql", encoding="utf-8") as sql:
        text = sql.read()
    if has_answers(work):
        text = text.replace("-- answers\n", "SELECT 'answers=' || count(*) FROM answers;\n")
    shell = subprocess.run(["sqlite3", f"{work}/store"], input=text, capture_output=True, text=True, check=False)
    return (shell.stdout + shell.stderr).splitlines()


def lots_in(work):
    """The lots of the store's file, and how many records each has."""
    sql = "SELECT 'lot ' || lot || ' records=' || (SELECT count(*) FROM kept WHERE kept.lot = lots.lot) FROM lots ORDER BY lot"
    shell = subprocess.run(["sqlite3", f"{work}/store", sql], capture_output=True, text=True, check=False)
    return (shell.stdout + shell.stderr).splitlines()


def knows_strict_tables():
    """Whether there is an `sqlite3` that reads the store's tables."""
    words = ["sqlite3", ":memory:", "CREATE TABLE t (k INTEGER PRIMARY KEY) STRICT"]
    try:
        return subprocess.run(words, capture_output=True, check=False).returncode == 0
    except FileNotFoundError:
        return False
