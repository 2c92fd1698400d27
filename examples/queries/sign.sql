select * from stock
where price <=> 3;
