%%
statement : "a string" and some more names in a line of 80 columns or so
