%skip \s+
A a
