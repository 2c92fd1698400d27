select * from orders where state = 'sent and day < 7;
