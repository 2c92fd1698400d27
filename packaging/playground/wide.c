/* Products and shifts of 128 bits: clang calls these by their names where a machine has none of its
   own. */
typedef unsigned long long u64;
typedef unsigned __int128 u128;

/* A number by its halves. */
static u128 of(u64 high, u64 low) {
  return (u128)high << 64 | low;
}

u128 __multi3(u128 x, u128 y) {
  u64 a = (u64)x, b = (u64)y, mask = 0xffffffff;
  u64 low = (a & mask) * (b & mask);
  u64 left = (a >> 32) * (b & mask) + (low >> 32);
  u64 right = (a & mask) * (b >> 32) + (left & mask);
  u64 high = (a >> 32) * (b >> 32) + (left >> 32) + (right >> 32);
  high += a * (u64)(y >> 64) + (u64)(x >> 64) * b;
  return of(high, right << 32 | (low & mask));
}

/* By 0 to 127 bits. */
u128 __ashlti3(u128 x, int by) {
  u64 high = (u64)(x >> 64), low = (u64)x;
  if (by == 0) return x;
  if (by >= 64) return of(low << (by - 64), 0);
  return of(high << by | low >> (64 - by), low << by);
}

u128 __lshrti3(u128 x, int by) {
  u64 high = (u64)(x >> 64), low = (u64)x;
  if (by == 0) return x;
  if (by >= 64) return of(0, high >> (by - 64));
  return of(high >> by, low >> by | high << (64 - by));
}
