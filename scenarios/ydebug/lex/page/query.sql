select * from stock;
