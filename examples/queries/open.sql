-- Orders that are still open, by their day.
select customers.name, orders.day
from customers, orders
where orders.customer = customers.id
  and not (orders.paid >= orders.price or orders.state = 'sent')
order by orders.day;
SELECT * FROM stock WHERE name LIKE 'b''%';
