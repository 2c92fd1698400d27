/* Semicolons are easily forgotten. */
while (n < 100) {
    if (n < 10)
        n = twice
    else n = m;
}
