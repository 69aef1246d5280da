"""The pages, compared with the tree."""
