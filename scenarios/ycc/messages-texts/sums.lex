%skip [ ]+
NUM   [0-9]+
