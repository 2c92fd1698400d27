%skip [ ]+
NUMBER [0-9]+
