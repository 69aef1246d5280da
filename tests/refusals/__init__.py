"""Refused allocations."""
