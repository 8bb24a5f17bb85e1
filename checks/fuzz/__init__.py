"""Inputs made by chance for the programs, and cases of them made small."""
