%skip [ \t\n]+
NUM   [0-9]+
