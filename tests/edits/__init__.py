"""The must-fail edits."""
