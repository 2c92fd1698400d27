%skip [ \t]+
NUM   [0-9]+
