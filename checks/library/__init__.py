"""The library in C and Python, beside `ystep`."""
