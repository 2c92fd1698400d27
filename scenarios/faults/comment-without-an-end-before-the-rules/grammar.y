%%
/* open