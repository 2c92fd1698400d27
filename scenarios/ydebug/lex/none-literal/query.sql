select name and also left from stock;
select * from stock;
