select * from stock;
select name, from stock
where left <= 10;
