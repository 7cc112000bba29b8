"""Tests of the companion: python3 -m unittest discover -s companion/tests -t ."""
