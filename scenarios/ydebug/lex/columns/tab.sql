	select *, y from x;
