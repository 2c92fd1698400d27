%%
 s
 /* here */
 : ; { }