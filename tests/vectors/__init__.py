"""Streams of an independent implementation, run through the program."""
