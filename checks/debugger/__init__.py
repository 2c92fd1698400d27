"""The debugger without memory, over random lines, at a terminal."""
