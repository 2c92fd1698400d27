select name
from stock
