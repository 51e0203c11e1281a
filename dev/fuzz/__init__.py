"""Tries to make the built program or the Python tools fail: see README.md in this folder."""
