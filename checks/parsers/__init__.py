"""Parsers in C, and drivers, beside `ystep`."""
