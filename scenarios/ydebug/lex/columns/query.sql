select été, größe, from x;
	select *, y from x;
