select 名前, , from x;
