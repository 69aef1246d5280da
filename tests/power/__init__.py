"""Cuts of power, made from the recorded calls of a server."""
