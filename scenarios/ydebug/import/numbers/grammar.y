%token A 300 B 32767 C 32768 D 0x1F5 E TOKEN(E) F 256
%token G 99999 "g"
%%
s : A B C D E F G ;
