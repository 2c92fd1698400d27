-- All rows with few of them left.
select name, fromage from stock
Where left <= 10 and price <= 5;
SELECT * FROM orders;
