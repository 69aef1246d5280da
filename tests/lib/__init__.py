"""Code that several test folders use."""
