"""The page of the playground and the module in it, beside `ystep` and `yacc`."""
