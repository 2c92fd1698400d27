%union { u } %token A %union {} %%
s : { a } A | { "}" } {{}} %prec A {c} ;; t : | A {} ; %% { z }