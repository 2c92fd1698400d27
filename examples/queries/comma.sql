-- The columns end with a comma.
select customers.name, orders.day,
from customers, orders;
