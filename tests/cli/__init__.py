"""The commands of the top folder, and what the program shows of stores."""
