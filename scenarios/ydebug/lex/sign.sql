select *
from stock where left ≤ 10;
