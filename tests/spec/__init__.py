"""The specification's cases, run through the program."""
