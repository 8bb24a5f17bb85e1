"""The formats of docs/FORMATS.md and docs/DEFINITIONS.md once more, written from these pages and not from the library.

Each module has one subject. None runs a program, and none reads a source of the library.
"""
