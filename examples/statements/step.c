/* Doubles a number
   while it is small. */
while (n < 100) {
    if (n < 10) if (n < 5) n = 1; else n = m;
    m = n = (k);
}
return m;
