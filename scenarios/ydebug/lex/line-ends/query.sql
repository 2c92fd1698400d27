select name
from stock
where left => 3;
