"""Hostile stores and bad disks."""
