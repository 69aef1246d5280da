"""Processes that work on a mount, and kill its servers."""
