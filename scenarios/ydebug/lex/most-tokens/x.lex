%skip [ ]+
X x
