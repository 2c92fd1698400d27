select name, fromage from stock
where left <= 10.5 and price <= 5;
