"""Edits of a store's file by SQL, past its constraints."""
import sqlite3
from dataclasses import dataclass
from typing import Callable

# The words of the schema that make a table refuse rows.
CONSTRAINTS = (" STRICT", " NOT NULL")


@dataclass
class Hostile:
    """A hostile file: its kind, its name, the function that makes it from a copy of the good store, whether each sample has it,
    whether opening it must be refused, the line of that refusal, where only one is right, and whether the good store is the everyday one."""
    kind: str
    name: str
    make: Callable[[str], None]
    always: bool = False
    is_no_store: bool = False
    wanted: str = ""
    everyday: bool = False


def connect(path):
    """A connection that writes the schema too, and looks at no reference or check."""
    store = sqlite3.connect(path, isolation_level=None)
    for pragma in ("writable_schema = ON", "ignore_check_constraints = ON", "foreign_keys = OFF", "synchronous = OFF"):
        store.execute(f"PRAGMA {pragma}")
    return store


def schema_of(store):
    """The texts of the schema by the places of its rows."""
    return store.execute("SELECT rowid, sql FROM sqlite_master WHERE sql IS NOT NULL").fetchall()


def without_constraints(text):
    for constraint in CONSTRAINTS:
        text = text.replace(constraint, "")
    return text


def set_schema(path, texts):
    """Sets the texts of rows of the schema."""
    store = connect(path)
    for rowid, text in texts:
        store.execute("UPDATE sqlite_master SET sql = ? WHERE rowid = ?", (text, rowid))
    store.close()


def edit(path, *statements):
    """Runs statements over tables that take any value, and restores the schema."""
    store = connect(path)
    texts = schema_of(store)
    store.close()
    set_schema(path, [(rowid, without_constraints(text)) for rowid, text in texts])
    store = connect(path)
    for statement in statements:
        text, *values = (statement,) if isinstance(statement, str) else statement
        store.execute(text, values)
    store.close()
    set_schema(path, texts)


def edit_schema(path, *statements):
    """Runs statements over the schema itself, as it is."""
    store = connect(path)
    for statement in statements:
        store.execute(statement)
    store.close()


def by_sql(kind, name, *statements, always=True, everyday=False, wanted=""):
    """A store that statements changed."""
    return Hostile(kind, name, lambda path: edit(path, *statements), always, everyday=everyday, wanted=wanted)


def by_schema(name, *statements, always=True, wanted=""):
    """A store whose schema statements changed."""
    return Hostile("schema", name, lambda path: edit_schema(path, *statements), always, wanted=wanted)
