"""Tests over lists, run over tables."""
