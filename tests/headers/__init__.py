"""The numbers of the definitions, compared with those of Linux's headers."""
