"""Stores that SQLite made or changed."""
